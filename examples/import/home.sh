#!/bin/sh
# A home router: HTB with three classes, as many guides to Linux set it up.
DEV=eth0
UPLINK=20
TC="sudo /sbin/tc"
BULK=$((UPLINK / 20))

$TC qdisc del dev $DEV root 2>/dev/null
$TC qdisc add dev $DEV root handle 1: htb default 30
$TC class add dev $DEV parent 1: classid 1:1 \
    htb rate ${UPLINK}mbit ceil ${UPLINK}mbit burst 15k
$TC class add dev $DEV parent 1:1 classid 1:10 htb rate 5mbit ceil ${UPLINK}mbit prio 1   # calls
$TC class add dev $DEV parent 1:1 classid 1:20 htb rate 14mbit ceil ${UPLINK}mbit prio 2  # the web
$TC class add dev $DEV parent 1:1 classid 1:30 htb rate ${BULK}mbit ceil 10mbit prio 3    # all else
$TC qdisc add dev $DEV parent 1:10 handle 10: pfifo limit 50
$TC qdisc add dev $DEV parent 1:20 handle 20: fq_codel memory_limit 4Mb ce_threshold 1ms && echo web
$TC qdisc add dev $DEV parent 1:30 handle 30: sfq perturb 10
$TC filter add dev $DEV parent 1:0 protocol ip prio 1 u32 match ip protocol 17 0xff match ip dport 5060 0xffff flowid 1:10
$TC filter add dev $DEV parent 1:0 protocol ip prio 2 u32 match ip sport 443 0xffff flowid 1:20
$TC filter add dev $DEV parent 1:0 protocol ip prio 2 u32 match ip src 192.0.2.0/25 match tcp dst 80 0xffff flowid 1:20
$TC filter add dev $DEV parent 1:0 protocol ipv6 prio 3 u32 match ip6 dst 2001:db8:7::/48 flowid 1:20
$TC filter add dev $DEV parent 1:0 protocol ip prio 4 u32 match ip tos 0x10 0xff flowid 1:10
$TC filter add dev $DEV parent 1:0 protocol ip prio 5 handle 6 fw flowid 1:10
# What comes in is policed.
$TC qdisc add dev $DEV handle ffff: ingress
$TC filter add dev $DEV parent ffff: protocol ip prio 50 u32 match ip src 0.0.0.0/0 \
    police rate 100mbit burst 100k drop flowid :1
