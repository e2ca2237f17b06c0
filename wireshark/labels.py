"""How Wireshark's trees call what outlines call `drop_batch_size`: `Drop batch size`."""

# what isn't written in lower case
UPPER = set('act ack arp atm bpf cfm cpu crc ct ctab cvlan dccp ecn eth fd ftab gro gso gtp hw icmp icmpv4 icmpv6 id ife igmp ip ipv4 ipv6 isn l2tpv3 lse mac '
            'mpls mpu mtu nat pc pcp pfcp ppp pppoe ptab rsvp rtab rtt sctp spi tc tcp tos ttl udp vlan vxlan xps'.split())


def label(name):
    """A name of outlines as a label. Different names have different ones."""
    words = [word.upper().replace('IPV', 'IPv').replace('ICMPV', 'ICMPv').replace('TPV', 'TPv') if word in UPPER else word for word in name.split('_')]
    return ' '.join([words[0][:1].upper() + words[0][1:]] + words[1:])
