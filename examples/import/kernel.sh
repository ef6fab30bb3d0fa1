# Of kinds that most kernels have: what the kernel shows of these lines has to carry over as the lines do.
DEV=lo
tc qdisc add dev $DEV root handle 1: htb default 20
tc class add dev $DEV parent 1: classid 1:1 htb rate 20mbit ceil 20mbit burst 20kb quantum 3000
tc class add dev $DEV parent 1:1 classid 1:10 htb rate 12mbit ceil 20mbit burst 20kb quantum 3000
tc class add dev $DEV parent 1:1 classid 1:20 htb rate 8mbit ceil 10mbit burst 20kb prio 2 quantum 3000
tc qdisc add dev $DEV parent 1:10 handle 10: tbf rate 10mbit burst 4kb latency 20ms
tc qdisc add dev $DEV parent 10:1 handle 100: pfifo limit 77
tc qdisc add dev $DEV parent 1:20 handle 20: bfifo limit 40kb
tc filter add dev $DEV parent 1: protocol ip u32 match ip dport 80 0xffff match ip src 10.1.0.0/16 flowid 1:10
tc filter add dev $DEV parent 1: protocol ip prio 2 u32 match ip protocol 17 0xff match udp src 53 0xffff flowid 1:20
tc filter add dev $DEV parent 1: protocol ipv6 prio 3 u32 match ip6 dst 2001:db8::/33 match ip6 dport 53 0xffff flowid 1:10
tc filter add dev $DEV parent 1: protocol ip prio 4 u32 match ip dst 192.0.2.7/32 match ip sport 7 0xffff flowid 1:30
tc filter add dev $DEV parent 1: protocol all prio 5 u32 match u32 0 0 flowid 1:20
tc qdisc add dev $DEV handle ffff: ingress
