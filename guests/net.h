// What a driver says to a network device (VIRTIO 1.2, 5.1), and the frames of a few protocols. It is included behind queues.c.
#ifndef NET_H
#define NET_H

#define VIRTIO_ID_NET 1
#define VIRTIO_NET_F_MAC (1UL << 5)

// What stands before each frame (5.1.6).
struct virtio_net_hdr {
    u8 flags;
    u8 gso_type;
    u16 hdr_len;
    u16 gso_size;
    u16 csum_start;
    u16 csum_offset;
    u16 num_buffers;
};

// Numbers of a frame have their highest byte first.
#define BIG(number) ((u16)((number) << 8 | (number) >> 8))

struct mac {
    u8 byte[6];
};

struct ip {
    u8 byte[4];
};

// Who asks and who is asked.
struct arp {
    u16 hardware;
    u16 protocol;
    u8 hardware_length;
    u8 protocol_length;
    u16 operation;
    struct mac sender_mac;
    struct ip sender;
    struct mac target_mac;
    struct ip target;
};

#define ETHERNET 1
#define ETHERNET_HEADER 14

#define ARP 0x0806
#define REQUEST 1
#define REPLY 2

// A datagram's header, and what it carries.
struct udp {
    u16 source;
    u16 destination;
    u16 length;
    u16 sum;
    u8 data[];
};

// A header without options, and the first fields of a message or a datagram.
struct ipv4 {
    u8 version_and_length;
    u8 service;
    u16 length;
    u16 id;
    u16 fragment;
    u8 time_to_live;
    u8 protocol;
    u16 header_sum;
    struct ip source;
    struct ip destination;
    union {
        struct {
            u8 type;
            u8 code;
            u16 sum;
            u16 echo_id;
            u16 sequence;
        };
        struct udp udp;
    };
};

#define IPV4 0x0800
#define IPV4_HEADER 20
#define ICMP 1
#define UDP 17
#define ECHO_REPLY 0
#define ECHO 8

// The largest frame that there is has 1,514 bytes.
struct frame {
    struct mac destination;
    struct mac source;
    u16 type;
    union {
        struct arp arp;
        struct ipv4 ipv4;
        u8 payload[1500];
    };
};

struct packet {
    struct virtio_net_hdr header;
    struct frame frame;
};

__attribute__((unused)) static u32 number_of(struct ip ip)
{
    return (u32)ip.byte[0] << 24 | ip.byte[1] << 16 | ip.byte[2] << 8 | ip.byte[3];
}

__attribute__((unused)) static void put_ip(const char *what, struct ip ip)
{
    put_text(what);
    for (u32 i = 0; i < sizeof ip.byte; i++) {
        if (i != 0)
            put_char('.');
        put_number(ip.byte[i]);
    }
    put_char('\n');
}

__attribute__((unused)) static void put_mac(const char *what, struct mac mac)
{
    put_text(what);
    for (u32 i = 0; i < sizeof mac.byte; i++) {
        if (i != 0)
            put_char(':');
        put_char("0123456789abcdef"[mac.byte[i] / 16]);
        put_char("0123456789abcdef"[mac.byte[i] % 16]);
    }
    put_char('\n');
}

// 5.1.4
static struct mac read_mac(void)
{
    u64 number = read_config(0);
    struct mac mac;
    for (u32 i = 0; i < sizeof mac.byte; i++)
        mac.byte[i] = number >> (8 * i);
    return mac;
}

#endif
