"""Faults of lines with addresses of both versions, prefixes, and protocols above IP.

The answers are what the grammar gives: q_worked_examples has the same lines, with their answers computed from it.
"""
from reading import READ, LineTest, bad_number, out_of_range


class LineAddresses(LineTest):
    def test_ipv6_addresses(self):
        self.assert_read(
            "pkt 1 src_ip ",
            [
                ("1:2:3:4::5:6:7:8", bad_number(4)),
                ("::1:2:3:4:5:6:7:8", bad_number(4)),
                ("1:2:3:4:5:6:7:8::", bad_number(4)),
                ("1::2::3", bad_number(4)),
                (":::", bad_number(4)),
                ("1:2:3:4:5:6:7", bad_number(4)),
                ("1:2:3:4:5:6:7:8:9", bad_number(4)),
                ("12345::", bad_number(4)),
                ("::g", bad_number(4)),
                ("::1.2.3.4", bad_number(4)),
                (":1", bad_number(4)),
                ("1:", bad_number(4)),
                (":", bad_number(4)),
            ],
        )

    def test_ipv4_addresses(self):
        self.assert_read(
            "pkt 1 dst_ip ",
            [
                ("256.0.0.0", out_of_range(4)),
                ("1.2.3.256", out_of_range(4)),
                ("1.2.3.00256", out_of_range(4)),
                ("0001.2.3.256", out_of_range(4)),
                ("1.2.3.0004", bad_number(4)),
                ("1.2.3", bad_number(4)),
                ("1.2.3.4.5", bad_number(4)),
                ("1.2.3.", bad_number(4)),
                ("1..3.4", bad_number(4)),
                ("1.2.3.x", bad_number(4)),
                ("1.2.3.-4", bad_number(4)),
                ("1.2.3.4/32", bad_number(4)),
            ],
        )

    def test_prefixes_of_ipv4(self):
        self.assert_read(
            "tc filter add dev e parent 1: prio 1 flower classid 1:1 src_ip ",
            [
                ("1.2.3.4/33", out_of_range(14)),
                ("1.2.3.4/", bad_number(14)),
                ("1.2.3.4/-1", bad_number(14)),
                ("1.2.3.256/8", out_of_range(14)),
                ("1.2.3.256/x", bad_number(14)),
                ("1.2.3/33", bad_number(14)),
                ("1.2.3.4/8/8", bad_number(14)),
                ("/8", bad_number(14)),
            ],
        )

    def test_prefixes_of_ipv6(self):
        self.assert_read(
            "tc filter add dev e parent 1: prio 1 flower classid 1:1 dst_ip ",
            [
                ("::1/129", out_of_range(14)),
                ("::1/", bad_number(14)),
                ("1::2::3/129", bad_number(14)),
                ("::1/x", bad_number(14)),
            ],
        )

    def test_protocols(self):
        self.assert_read(
            "pkt 1 ip_proto ",
            [
                ("TCP", bad_number(4)),
                ("0x6", bad_number(4)),
                ("ip", bad_number(4)),
            ],
        )

    def test_versions_of_a_filter(self):
        self.assert_read(
            "tc filter add dev e parent 1: prio 1 ",
            [
                ("protocol ip flower classid 1:1 src_ip ::1", out_of_range(16)),
                ("protocol ipv6 flower classid 1:1 dst_ip 1.2.3.4", out_of_range(16)),
                ("protocol ip flower classid 1:1 dst_ip 1.2.3.4", READ),
                ("protocol ipv6 flower classid 1:1 src_ip ::1", READ),
                ("protocol all flower classid 1:1 src_ip ::1", READ),
                ("flower classid 1:1 src_ip ::1 dst_ip 1.2.3.4", out_of_range(16)),
                ("flower classid 1:1 dst_ip ::1 src_ip 1.2.3.4", out_of_range(16)),
                ("flower classid 1:1 src_ip ::1 dst_ip ::2", READ),
                ("flower classid 1:1 dst_ip 1.2.3.4/8 src_ip 5.6.7.8", READ),
                ("protocol ip flower classid 1:1 src_ip ::1/129", out_of_range(16)),
                ("protocol ip flower classid 1:1 src_ip ::g", bad_number(16)),
            ],
        )

    def test_versions_of_a_packet(self):
        self.assert_read(
            "pkt 1 ",
            [
                ("src_ip ::1 dst_ip 1.2.3.4", out_of_range(6)),
                ("dst_ip ::1 src_ip 1.2.3.4", out_of_range(6)),
                ("src_ip ::1 dst_ip ::2", READ),
                ("dst_ip 1.2.3.4 src_ip 5.6.7.8", READ),
                ("src_ip 1.2.3.4 dst_ip ::g", bad_number(6)),
                ("src_ip ::/0", bad_number(4)),
            ],
        )
