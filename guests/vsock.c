// Takes connections from the host over a vsock device (VIRTIO 1.2, 5.10), on the ports of three old services: it gives back what comes
// (echo, RFC 862), drops it (discard, RFC 863), or sends bytes without an end (character generator, RFC 864). The doubleword at offset 8
// of its image has a port of the host that it dials in its lower half, or 0. There it sends a line, and gives back what comes; once that
// connection ends it turns the machine off. With its highest bit it waits for interrupts and not in a loop; with the next one a second hart counts
// meanwhile.
enum { RECEIVE, TRANSMIT, EVENTS, QUEUES };
#define QUEUE_SIZE 16
#include "queues.c"
#include "lines.h"
#include "measure.h"

#define WAITS (1UL << 63)
#define COUNTS (1UL << 62)

#define VIRTIO_ID_VSOCK 19
#define VIRTIO_VSOCK_TYPE_STREAM 1
#define VIRTIO_VSOCK_EVENT_TRANSPORT_RESET 0
#define HOST 2

enum virtio_vsock_op { REQUEST = 1, RESPONSE, RST, SHUTDOWN, RW, CREDIT_UPDATE, CREDIT_REQUEST };

// A packet's header (5.10.6), and what stands behind it.
struct virtio_vsock_hdr {
    u64 src_cid;
    u64 dst_cid;
    u32 src_port;
    u32 dst_port;
    u32 len;
    u16 type;
    u16 op;
    u32 flags;
    u32 buf_alloc;
    u32 fwd_cnt;
} __attribute__((packed, aligned(4)));

#define ROOM 4096
struct packet {
    struct virtio_vsock_hdr header;
    u8 data[ROOM];
};

#define ECHO 7
#define DISCARD 9
#define GENERATE 19
#define OWN_PORT 1025

// A connection, and what is to be sent on it. What came of it and wasn't given back stands in its ring, which is among the others.
struct connection {
    u32 peer, own;
    enum { FREE, ASKED, OPEN } state;
    enum virtio_vsock_op due;
    int asked_for_credit;
    u32 sent, peer_room, peer_taken;
    u32 came, taken, told;
};

#define CONNECTIONS 64
static struct connection connections[CONNECTIONS];
static u8 rings[CONNECTIONS][ROOM];

// A packet of no connection that is answered by a reset.
static struct connection stray;

// Behind the stacks, where they can be foretold: what is sent, what comes, and an event.
static struct packet *const sent = (struct packet *)0x80300000;
static struct packet *const came = (struct packet *)0x80310000;
static volatile u32 *const event = (u32 *)0x80330000;

static u8 pattern[ROOM];
static u64 own_cid;
static u16 received, events;

static u32 dialled_port(void)
{
    return rounds;
}

static u8 *ring_of(const struct connection *it)
{
    return rings[it - connections];
}

static int is_dialled(const struct connection *it)
{
    return it->own == OWN_PORT;
}

static void put_line(const char *what, u64 number, const char *rest)
{
    put_text(what);
    put_number(number);
    put_text(rest);
}

static struct connection *find(u32 peer, u32 own)
{
    for (u32 at = 0; at < CONNECTIONS; at++)
        if (connections[at].state != FREE && connections[at].peer == peer && connections[at].own == own)
            return &connections[at];
    return 0;
}

static struct connection *begin_connection(u32 peer, u32 own, enum virtio_vsock_op first)
{
    for (u32 at = 0; at < CONNECTIONS; at++) {
        struct connection *it = &connections[at];
        if (it->state != FREE)
            continue;
        it->peer = peer, it->own = own, it->due = first;
        it->state = first == REQUEST ? ASKED : OPEN;
        it->asked_for_credit = 0;
        it->sent = it->peer_room = it->peer_taken = it->came = it->taken = it->told = 0;
        return it;
    }
    return 0;
}

// Where the host refuses or ends the connection that the guest asked for, nothing is left to do.
static void end_connection(struct connection *it)
{
    if (is_dialled(it)) {
        if (it->state == ASKED)
            put_text("the host refuses it\n");
        else
            put_line("the host ends it, behind ", it->came, " bytes\n");
        shut_down();
    }
    it->state = FREE;
}

static void dial(void)
{
    put_line("port ", dialled_port(), " of the host is dialled\n");
    begin_connection(dialled_port(), OWN_PORT, REQUEST);
}

static void keep(struct connection *it, const struct packet *packet)
{
    u32 len = packet->header.len;
    for (u32 at = 0; at < len && it->own != DISCARD; at++)
        ring_of(it)[(it->came + at) % ROOM] = packet->data[at];
    it->came += len;
    if (it->own == DISCARD || it->own == GENERATE)
        it->taken = it->came;
}

static int is_service(u32 port)
{
    return port == ECHO || port == DISCARD || port == GENERATE;
}

static void take(const struct packet *packet)
{
    const struct virtio_vsock_hdr *header = &packet->header;
    struct connection *it = find(header->src_port, header->dst_port);
    if (it == 0 && header->op == REQUEST && is_service(header->dst_port))
        it = begin_connection(header->src_port, header->dst_port, RESPONSE);
    if (it == 0) {
        if (header->op != RST)
            stray = (struct connection){.peer = header->src_port, .own = header->dst_port, .due = RST};
        return;
    }
    it->peer_room = header->buf_alloc;
    it->peer_taken = header->fwd_cnt;
    it->asked_for_credit = 0;
    if (header->op == RESPONSE && it->state == ASKED) {
        it->state = OPEN;
        it->due = RW;
    } else if (header->op == RW && header->len <= ROOM - (it->came - it->taken))
        keep(it, packet);
    else if (header->op == RST)
        end_connection(it);
    else if (header->op == CREDIT_REQUEST) {
        if (it->due == 0)
            it->due = CREDIT_UPDATE;
    } else if (header->op != CREDIT_UPDATE && header->op != REQUEST)
        it->due = RST;
}

// Takes all that came. Whether there was anything.
static int receive(void)
{
    volatile struct virtq_used *used = &queues[RECEIVE].used;
    ask_for_interrupt(RECEIVE);
    if (used->idx == received)
        return 0;
    u16 before = received;
    for (; used->idx != received; received++) {
        barrier();
        u32 slot = used->ring[received % QUEUE_SIZE].id;
        take(&came[slot]);
        offer_at(RECEIVE, slot, &came[slot], sizeof came[slot], VIRTQ_DESC_F_WRITE);
    }
    kick(RECEIVE, received - before);
    return 1;
}

// Sends a header of a connection, and so many bytes that stand behind it.
static void send(struct connection *it, enum virtio_vsock_op op, u32 len)
{
    it->told = it->taken;
    sent->header = (struct virtio_vsock_hdr){own_cid, HOST, it->own, it->peer, len, VIRTIO_VSOCK_TYPE_STREAM, op, 0, ROOM, it->taken};
    offer(TRANSMIT, sent, sizeof sent->header + len, 0);
}

static u32 least(u32 one, u32 other)
{
    return one < other ? one : other;
}

// How much there is to send: what came, or bytes without an end.
static u32 waiting(const struct connection *it)
{
    if (it->state != OPEN)
        return 0;
    return it->own == GENERATE ? ROOM : it->came - it->taken;
}

// Sends as much as the peer takes.
static void send_bytes(struct connection *it, u32 len)
{
    const u8 *from = it->own == GENERATE ? pattern : ring_of(it);
    u32 first = it->own == GENERATE ? it->sent : it->taken;
    len = least(len, ROOM - first % ROOM);
    for (u32 at = 0; at < len; at++)
        sent->data[at] = from[first % ROOM + at];
    it->sent += len;
    if (it->own != GENERATE)
        it->taken += len;
    send(it, RW, len);
}

// The line that the guest sends where it has dialled.
static void say_hello(struct connection *it)
{
    const char *text = "a guest is here\n";
    u32 len = 0;
    for (; text[len] != 0; len++)
        sent->data[len] = text[len];
    it->sent += len;
    send(it, RW, len);
}

// Sends one packet of this connection, if there is one to send.
static int send_next(struct connection *it)
{
    enum virtio_vsock_op due = it->due;
    u32 credit = it->peer_room - (it->sent - it->peer_taken), len = waiting(it);
    it->due = 0;
    if (due == RW)
        say_hello(it);
    else if (due != 0) {
        send(it, due, 0);
        if (due == RST)
            end_connection(it);
    } else if (len != 0 && credit != 0)
        send_bytes(it, least(len, credit));
    else if (len != 0 && !it->asked_for_credit) {
        it->asked_for_credit = 1;
        send(it, CREDIT_REQUEST, 0);
    } else if (it->taken - it->told >= ROOM / 2)
        send(it, CREDIT_UPDATE, 0);
    else
        return 0;
    return 1;
}

// Sends one packet where the one before is used, of the connections in turn. Whether there was one.
static int send_one(void)
{
    static u32 turn;
    volatile struct virtq *queue = &queues[TRANSMIT];
    ask_for_interrupt(TRANSMIT);
    if (queue->used.idx != queue->avail.idx)
        return 0;
    if (stray.due != 0)
        return send_next(&stray);
    for (u32 count = 0; count < CONNECTIONS; count++) {
        struct connection *it = &connections[turn++ % CONNECTIONS];
        if (it->state != FREE && send_next(it))
            return 1;
    }
    return 0;
}

static void begin_anew(void)
{
    own_cid = read_config(0);
    put_line("our number is ", own_cid, "\n");
    for (u32 at = 0; at < CONNECTIONS; at++)
        connections[at].state = FREE;
    if (dialled_port() != 0)
        dial();
}

static void offer_event(void)
{
    offer(EVENTS, event, sizeof *event, VIRTQ_DESC_F_WRITE);
}

// A reset of the transport: the connections are gone, and the number may be another one (5.10.6.7).
static int is_reset(void)
{
    ask_for_interrupt(EVENTS);
    if (queues[EVENTS].used.idx == events)
        return 0;
    events++;
    barrier();
    if (*event == VIRTIO_VSOCK_EVENT_TRANSPORT_RESET) {
        put_text("all connections are gone\n");
        begin_anew();
    }
    offer_event();
    return 1;
}

static void wait(void)
{
    if (rounds & WAITS)
        wait_for_line();
    write_register(InterruptACK, read_register(InterruptStatus));
    if (read_register(Status) & DEVICE_NEEDS_RESET)
        give_up("the device needs a reset");
    barrier();
}

// It never ends.
void run_second(u64 hart)
{
    static volatile u64 count;
    (void)hart;
    for (;; count++) {
    }
}

void run(u64 hart)
{
    (void)hart;
    for (u32 at = 0; at < ROOM; at++)
        pattern[at] = at * 7 + (at >> 8);
    find_device(VIRTIO_ID_VSOCK);
    begin(VIRTIO_F_VERSION_1);
    finish_with(QUEUES);
    if (rounds & WAITS)
        take_lines();
    for (u32 slot = 0; slot < QUEUE_SIZE; slot++)
        offer_at(RECEIVE, slot, &came[slot], sizeof came[slot], VIRTQ_DESC_F_WRITE);
    offer_event();
    begin_anew();
    if (rounds & COUNTS)
        start_second(1);
    for (;;)
        if (!is_reset() && !receive() && !send_one())
            wait();
}
