# Four classes, which packets reach by filters of each kind or by default: kernel_packets.py sends some through it.
DEV=lo
tc qdisc add dev $DEV root handle 1: htb default 30
for class in 10 20 30 40; do tc class add dev $DEV parent 1: classid 1:$class htb rate 10mbit burst 20kb quantum 3000; done
for class in 10 20 30 40; do tc qdisc add dev $DEV parent 1:$class handle $class: pfifo limit 50; done
tc filter add dev $DEV parent 1: protocol ip prio 1 u32 match ip dport 80 0xffff match ip src 10.1.0.0/16 flowid 1:10
tc filter add dev $DEV parent 1: protocol ip prio 2 u32 match ip protocol 17 0xff match ip sport 53 0xffff flowid 1:20
tc filter add dev $DEV parent 1: protocol ipv6 prio 3 u32 match ip6 dst 2001:db8::/33 match ip6 dport 53 0xffff flowid 1:40
tc filter add dev $DEV parent 1: protocol ip prio 4 u32 match ip dst 192.0.2.7/32 match ip sport 7 0xffff flowid 1:40
tc filter add dev $DEV parent 1: protocol ip prio 5 u32 match u16 1389 0xffff at 22 flowid 1:20
tc filter add dev $DEV parent 1: protocol ipv6 prio 6 u32 match u32 0 0 flowid 1:10
