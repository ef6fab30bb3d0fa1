# A prio above a tbf and a drr, changed as it runs; some lines do nothing that can be carried over.
WAN="wan0"; LAN=lan0
tc qdisc replace dev $WAN root handle 1: prio bands 4
tc qdisc add dev $WAN parent 1:1 handle 10: tbf rate 1mbit burst 2kb latency 40ms peakrate 2mbit minburst 1540
tc qdisc add dev $WAN parent 1:2 handle 20: drr
for i in 1 2; do tc class add dev $WAN parent 20: classid 20:$i drr; done
tc class replace dev $WAN parent 20: classid 20:1 drr quantum 3000
tc class add dev $WAN parent 20: classid 20:2 drr
tc class change dev $WAN classid 20:2 drr quantum 1.5kb
tc qdisc add dev $WAN parent 20:1 fq_codel limit 1000 noecn
tc qdisc add dev $WAN parent 1:3 handle 30: pfifo limit 100
tc qdisc replace dev $WAN parent 1:3 handle 31: bfifo limit 32kb
tc qdisc add dev $WAN parent 1:4 handle 40: netem delay 10ms limit 500
tc filter add dev $WAN parent 1: prio 1 protocol ip flower ip_proto udp dst_port 53 classid 1:1
tc filter add dev $WAN parent 1: prio 2 protocol ip flower ip_proto tcp dst_port 1000-2000 classid 1:3
tc filter add dev $WAN parent 1: prio 3 protocol all matchall classid 1:2
tc filter add dev $WAN parent 20: prio 1 protocol ip flower src_ip 10.1.0.0/16 classid 20:1
tc filter add dev $WAN parent 20: prio 2 protocol ip flower src_ip 10.2.0.0/16 classid 20:2 action pass
tc filter add dev $WAN parent 20: prio 3 protocol ip flower src_ip 10.3.0.0/16 classid 20:3
tc qdisc add dev $LAN root fq_codel
tc -s qdisc show dev $WAN
