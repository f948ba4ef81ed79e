// Asks for an address (DHCP, RFC 2131), pings the router that it is told of, and fetches a text from it by a datagram (UDP, RFC 768).
// Meanwhile it answers who asks for its address and who pings it. Where nobody gives it an address it takes one of its own, and has the
// guest of net.c for its router. The doubleword at offset 8 of its image has the router's port that the text comes from, or 0: then it
// stays, and answers. With its highest bit it waits for interrupts and not in a loop.
enum { RECEIVE, TRANSMIT, QUEUES };
#include "queues.c"
#include "net.h"
#include "lines.h"
#include "measure.h"

#define WAITS (1UL << 63)
#define SECOND 1000000000UL

#define DHCP_CLIENT 68
#define DHCP_SERVER 67
#define OWN_PORT 1025

// A message that asks for an address, or gives one (RFC 2131, 2), and the options that stand behind it (RFC 2132).
struct dhcp {
    u8 op;
    u8 hardware;
    u8 hardware_length;
    u8 hops;
    u8 transaction[4];
    u16 seconds;
    u16 flags;
    struct ip client;
    struct ip yours;
    struct ip server;
    struct ip relay;
    u8 hardware_address[16];
    u8 names[192];
    u8 magic[4];
    u8 options[60];
};

#define BOOTREQUEST 1
#define BOOTREPLY 2
enum { ROUTER = 3, WANTED_ADDRESS = 50, MESSAGE_TYPE = 53, SERVER = 54, WANTED_OPTIONS = 55, END = 255 };
enum { DISCOVER = 1, OFFER = 2, REQUESTED = 3, ACK = 5 };

// What came and what is sent are behind the stacks, where they can be foretold.
static struct packet *const came = (struct packet *)0x80301000;
static struct packet *const sent = (struct packet *)0x80300000;

static const struct ip nobody, everybody = {{255, 255, 255, 255}};
static const struct mac all = {{255, 255, 255, 255, 255, 255}};

static struct mac own_mac, router_mac;
static struct ip own = {{10, 0, 0, 1}}, router = {{10, 0, 0, 2}}, offered, server;
static int has_buffer;

static u16 text_port(void)
{
    return rounds;
}

static int is(struct ip one, struct ip other)
{
    return number_of(one) == number_of(other);
}

static void wait_until(u64 moment)
{
    if (rounds & WAITS) {
        sbi_call(SBI_TIME, 0, moment, 0, 0);
        wait_for_line();
    }
}

// Whether a frame comes before that moment. Its length is put there.
static int comes_before(u64 moment, u32 *length)
{
    if (!has_buffer)
        offer(RECEIVE, came, sizeof *came, VIRTQ_DESC_F_WRITE);
    has_buffer = 1;
    while (!is_used(RECEIVE)) {
        if (csr_read(time) >= moment)
            return 0;
        wait_until(moment);
    }
    has_buffer = 0;
    volatile struct virtq_used *used = &queues[RECEIVE].used;
    *length = used->ring[(u16)(used->idx - 1) % QUEUE_SIZE].len - sizeof came->header;
    return 1;
}

static void send(struct mac destination, u16 type, u32 length)
{
    sent->frame.destination = destination;
    sent->frame.source = own_mac;
    sent->frame.type = type;
    offer(TRANSMIT, sent, sizeof sent->header + ETHERNET_HEADER + length, 0);
    while (!is_used(TRANSMIT))
        wait_until(-1UL);
}

static void clear(u32 length)
{
    for (u32 at = 0; at < length; at++)
        sent->frame.payload[at] = 0;
}

// The sum of an even number of bytes (RFC 1071).
static u16 sum_of(const void *bytes, u32 length)
{
    const u16 *words = bytes;
    u32 sum = 0;
    for (u32 at = 0; at < length / 2; at++)
        sum += words[at];
    sum = (sum & 0xffff) + (sum >> 16);
    return ~(sum + (sum >> 16));
}

// Sends what stands behind the header of the internet protocol, so many bytes.
static void send_ipv4(struct mac to_mac, u8 protocol, struct ip from, struct ip to, u32 length)
{
    struct ipv4 *ipv4 = &sent->frame.ipv4;
    length += IPV4_HEADER;
    ipv4->version_and_length = 0x45;
    ipv4->service = 0;
    ipv4->length = BIG(length);
    ipv4->id = ipv4->fragment = ipv4->header_sum = 0;
    ipv4->time_to_live = 64;
    ipv4->protocol = protocol;
    ipv4->source = from;
    ipv4->destination = to;
    ipv4->header_sum = sum_of(ipv4, IPV4_HEADER);
    send(to_mac, BIG(IPV4), length);
}

// A datagram of so many bytes, without a sum.
static void send_udp(struct mac to_mac, struct ip from, u16 from_port, struct ip to, u16 to_port, u32 length)
{
    struct udp *udp = &sent->frame.ipv4.udp;
    length += sizeof *udp;
    udp->source = BIG(from_port);
    udp->destination = BIG(to_port);
    udp->length = BIG(length);
    udp->sum = 0;
    send_ipv4(to_mac, UDP, from, to, length);
}

static int is_ipv4(u8 protocol)
{
    const struct ipv4 *ipv4 = &came->frame.ipv4;
    return came->frame.type == BIG(IPV4) && ipv4->version_and_length == 0x45 && ipv4->protocol == protocol;
}

static int is_udp(u16 from, u16 to)
{
    const struct udp *udp = &came->frame.ipv4.udp;
    return is_ipv4(UDP) && udp->source == BIG(from) && udp->destination == BIG(to);
}

static int is_arp(u16 operation, struct ip target)
{
    const struct arp *arp = &came->frame.arp;
    return came->frame.type == BIG(ARP) && arp->operation == BIG(operation) && is(arp->target, target);
}

static void send_arp(struct mac to_mac, u16 operation, struct mac target_mac, struct ip target)
{
    sent->frame.arp = (struct arp){BIG(ETHERNET), BIG(IPV4), sizeof own_mac, sizeof own, BIG(operation), own_mac, own, target_mac, target};
    send(to_mac, BIG(ARP), sizeof(struct arp));
}

static void send_echo(struct mac to_mac, struct ip to, u32 length)
{
    struct ipv4 *ipv4 = &sent->frame.ipv4;
    ipv4->code = 0;
    ipv4->sum = 0;
    ipv4->sum = sum_of(&ipv4->type, length);
    send_ipv4(to_mac, ICMP, own, to, length);
}

// Who asks for the own address is told it, and a ping is answered. The byte behind one of an odd length is cleared for its sum.
static void answer_others(u32 length)
{
    const struct ipv4 *ipv4 = &came->frame.ipv4;
    u32 echoed = BIG(ipv4->length) - IPV4_HEADER;
    if (is_arp(REQUEST, own))
        send_arp(came->frame.arp.sender_mac, REPLY, came->frame.arp.sender_mac, came->frame.arp.sender);
    else if (is_ipv4(ICMP) && ipv4->type == ECHO && is(ipv4->destination, own) && echoed <= length - ETHERNET_HEADER - IPV4_HEADER) {
        for (u32 at = 0; at < echoed; at++)
            (&sent->frame.ipv4.type)[at] = (&ipv4->type)[at];
        (&sent->frame.ipv4.type)[echoed] = 0;
        sent->frame.ipv4.type = ECHO_REPLY;
        send_echo(came->frame.source, ipv4->source, echoed + echoed % 2);
    }
}

// Asks each second until the answer has come, at most so often.
static int ask(void (*question)(void), int (*is_answer)(void), u32 times)
{
    u32 length;
    for (; times != 0; times--) {
        question();
        for (u64 end = csr_read(time) + SECOND; comes_before(end, &length);) {
            if (is_answer())
                return 1;
            answer_others(length);
        }
    }
    return 0;
}

static void ask_for_lease(u8 type)
{
    struct dhcp *dhcp = (struct dhcp *)sent->frame.ipv4.udp.data;
    u8 *option = dhcp->options;
    clear(IPV4_HEADER + sizeof(struct udp) + sizeof *dhcp);
    dhcp->op = BOOTREQUEST;
    dhcp->hardware = ETHERNET;
    dhcp->hardware_length = sizeof own_mac;
    *(struct mac *)dhcp->hardware_address = own_mac;
    *(struct ip *)dhcp->transaction = (struct ip){{'g', 'u', 's', 't'}};
    *(struct ip *)dhcp->magic = (struct ip){{99, 130, 83, 99}};
    *option++ = MESSAGE_TYPE, *option++ = 1, *option++ = type;
    *option++ = WANTED_OPTIONS, *option++ = 1, *option++ = ROUTER;
    if (type == REQUESTED) {
        *option++ = WANTED_ADDRESS, *option++ = 4, *(struct ip *)option = offered, option += 4;
        *option++ = SERVER, *option++ = 4, *(struct ip *)option = server, option += 4;
    }
    *option = END;
    send_udp(all, nobody, DHCP_CLIENT, everybody, DHCP_SERVER, sizeof *dhcp);
}

static void discover(void)
{
    ask_for_lease(DISCOVER);
}

static void request(void)
{
    ask_for_lease(REQUESTED);
}

// The value of an option of what came, or nothing.
static const u8 *option_of(const struct dhcp *dhcp, u8 code)
{
    const u8 *option = dhcp->options, *end = came->frame.payload + sizeof came->frame.payload - 6;
    while (option < end && *option != END) {
        if (*option == code)
            return option + 2;
        option += *option == 0 ? 1 : option[1] + 2;
    }
    return 0;
}

// An offer or an acknowledgement says which address, by whom, and which router.
static int gives(u8 type)
{
    const struct dhcp *dhcp = (const struct dhcp *)came->frame.ipv4.udp.data;
    if (!is_udp(DHCP_SERVER, DHCP_CLIENT) || dhcp->op != BOOTREPLY || !is(*(struct ip *)dhcp->transaction, (struct ip){{'g', 'u', 's', 't'}}))
        return 0;
    const u8 *said = option_of(dhcp, MESSAGE_TYPE), *by = option_of(dhcp, SERVER), *way = option_of(dhcp, ROUTER);
    if (said == 0 || *said != type || by == 0 || way == 0)
        return 0;
    offered = dhcp->yours;
    server = *(const struct ip *)by;
    router = *(const struct ip *)way;
    return 1;
}

static int is_offer(void)
{
    return gives(OFFER);
}

static int is_acknowledged(void)
{
    return gives(ACK);
}

static void look_for_router(void)
{
    send_arp(all, REQUEST, (struct mac){{0}}, router);
}

static int is_router(void)
{
    if (!is_arp(REPLY, own) || !is(came->frame.arp.sender, router))
        return 0;
    router_mac = came->frame.arp.sender_mac;
    return 1;
}

// A message of 56 bytes behind its eight first ones.
static void ping_router(void)
{
    struct ipv4 *ipv4 = &sent->frame.ipv4;
    u8 *data = (u8 *)(&ipv4->sequence + 1);
    ipv4->type = ECHO;
    ipv4->echo_id = BIG(7);
    ipv4->sequence = BIG(1);
    for (u32 at = 0; at < 56; at++)
        data[at] = at;
    send_echo(router_mac, router, 64);
}

static int is_pong(void)
{
    const struct ipv4 *ipv4 = &came->frame.ipv4;
    return is_ipv4(ICMP) && ipv4->type == ECHO_REPLY && ipv4->echo_id == BIG(7) && ipv4->sequence == BIG(1) && is(ipv4->source, router);
}

static void ask_for_text(void)
{
    const char *text = "text, please\n";
    u32 length = 0;
    for (; text[length] != 0; length++)
        sent->frame.ipv4.udp.data[length] = text[length];
    send_udp(router_mac, own, OWN_PORT, router, text_port(), length);
}

static int is_text(void)
{
    return is_udp(text_port(), OWN_PORT);
}

static void put_datagram(void)
{
    const struct udp *udp = &came->frame.ipv4.udp;
    u32 length = BIG(udp->length) - sizeof *udp;
    for (u32 at = 0; at < length && at < sizeof came->frame.payload - IPV4_HEADER - sizeof *udp; at++)
        put_char(udp->data[at]);
}

static void find_address(void)
{
    if (!ask(discover, is_offer, 3) || !ask(request, is_acknowledged, 3)) {
        put_text("nobody gives us an address\n");
        return;
    }
    own = offered;
    put_ip("we are ", own);
    put_ip("the router is ", router);
}

void run(u64 hart)
{
    (void)hart;
    find_device(VIRTIO_ID_NET);
    if ((begin(VIRTIO_F_VERSION_1 | VIRTIO_NET_F_MAC) & VIRTIO_NET_F_MAC) == 0)
        give_up("the device has no address");
    own_mac = read_mac();
    finish_with(QUEUES);
    if (rounds & WAITS) {
        take_lines();
        csr_set(sie, TIMER_INTERRUPT);
    }
    find_address();
    ask(look_for_router, is_router, -1);
    put_mac("the router's address is ", router_mac);
    ask(ping_router, is_pong, -1);
    put_text("it answers a ping\n");
    if (text_port() != 0) {
        ask(ask_for_text, is_text, -1);
        put_datagram();
        return;
    }
    for (u32 length;;)
        if (comes_before(-1UL, &length))
            answer_others(length);
}
