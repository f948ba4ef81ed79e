// Tells everybody its address, and who asks for it, and answers a ping: a driver of a network device (VIRTIO 1.2, 5.1), and as much of
// ARP (RFC 826), of the internet protocol (RFC 791) and of its messages (ICMP, RFC 792) as that takes.

// Its queues (5.1.2).
enum { RECEIVE, TRANSMIT, QUEUES };
#include "queues.c"
#include "net.h"

// Where a frame is, and what answers it: behind the stacks, where it can be foretold.
static struct packet *const packet = (struct packet *)0x80300000;

static struct mac own_mac;
static const struct ip own = {{10, 0, 0, 2}};

// The length of the frame that comes next.
static u32 receive(void)
{
    offer(RECEIVE, packet, sizeof *packet, VIRTQ_DESC_F_WRITE);
    while (!is_used(RECEIVE)) {
    }
    volatile struct virtq_used *used = &queues[RECEIVE].used;
    return used->ring[(u16)(used->idx - 1) % QUEUE_SIZE].len - sizeof packet->header;
}

// Sends a frame of this length (5.1.6.2).
static void send(struct mac destination, u32 length)
{
    packet->header = (struct virtio_net_hdr){0};
    packet->frame.destination = destination;
    packet->frame.source = own_mac;
    offer(TRANSMIT, packet, sizeof packet->header + length, 0);
    while (!is_used(TRANSMIT)) {
    }
}

static void answer(u32 length)
{
    send(packet->frame.source, length);
    put_text("it is answered\n");
}

// It asks for its own address (RFC 5227).
static void announce(void)
{
    const struct mac nobody = {{0}}, everybody = {{255, 255, 255, 255, 255, 255}};
    packet->frame.type = BIG(ARP);
    packet->frame.arp = (struct arp){BIG(ETHERNET), BIG(IPV4), sizeof own_mac, sizeof own, BIG(REQUEST), own_mac, own, nobody, own};
    send(everybody, ETHERNET_HEADER + sizeof(struct arp));
    put_mac("all are told that our address is ", own_mac);
}

static int asks_for_us(struct arp *arp)
{
    return packet->frame.type == BIG(ARP) && arp->operation == BIG(REQUEST) && number_of(arp->target) == number_of(own);
}

static void say_who_we_are(struct arp *arp)
{
    put_ip("it asks for us, from ", arp->sender);
    arp->operation = BIG(REPLY);
    arp->target_mac = arp->sender_mac;
    arp->target = arp->sender;
    arp->sender_mac = own_mac;
    arp->sender = own;
}

static int pings_us(struct ipv4 *ipv4)
{
    return packet->frame.type == BIG(IPV4) && ipv4->version_and_length == 0x45 && ipv4->protocol == ICMP && ipv4->type == ECHO &&
           number_of(ipv4->destination) == number_of(own);
}

// The sum of the header's words stays, and that of the message's is less by the type (RFC 1624).
static void answer_ping(struct ipv4 *ipv4)
{
    put_ip("it is a ping from ", ipv4->source);
    ipv4->destination = ipv4->source;
    ipv4->source = own;
    ipv4->type = ECHO_REPLY;
    u32 sum = ipv4->sum + ECHO;
    ipv4->sum = sum + (sum >> 16);
}

void run(u64 hart)
{
    (void)hart;
    find_device(VIRTIO_ID_NET);
    if ((begin(VIRTIO_F_VERSION_1 | VIRTIO_NET_F_MAC) & VIRTIO_NET_F_MAC) == 0)
        give_up("the device has no address");
    own_mac = read_mac();
    finish_with(QUEUES);
    announce();
    for (int is_pinged = 0; !is_pinged;) {
        u32 length = receive();
        put_text("a frame of ");
        put_number(length);
        put_text(" bytes: ");
        struct frame *frame = &packet->frame;
        if (asks_for_us(&frame->arp)) {
            say_who_we_are(&frame->arp);
            answer(length);
        } else if (pings_us(&frame->ipv4)) {
            answer_ping(&frame->ipv4);
            answer(length);
            is_pinged = 1;
        } else
            put_text("it isn't for us\n");
    }
}
