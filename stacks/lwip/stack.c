/* The adapter of lwIP for the runner: it uses lwIP's raw API, with the runner's clock instead of the machine's.
 *
 * It links Debian's unmodified liblwip. lwIP reads the time with sys_now, which is defined here, and runs its TCP timers in tcp_tmr,
 * which this file calls every 250 ms. Only one thread calls lwIP, so nothing is locked. Debian compiles lwIP without backlogs, so the
 * profile has `extra 65535`.
 */
#include "../tcpwit_stack.h"
#include <lwip/inet_chksum.h>
#include <lwip/init.h>
#include <lwip/ip4.h>
#include <lwip/netif.h>
#include <lwip/priv/tcp_priv.h>
#include <lwip/tcp.h>
#include <stdlib.h>
#include <string.h>

enum { TICK = 250000, SOCKETS = 64, QUEUE = 64, ROOM = 1 << 17, TRACKED = 64, HEADER = 20, LONGEST = 66000, FIRST_ISS = 6509 };

struct socket {
    struct tcp_pcb *pcb;
    long fault;                       /* 0, or STACK_REFUSED .. */
    int listens, connected, eof, shut;
    struct socket *queue[QUEUE];      /* of a listener: waiting children */
    int waiting;
    unsigned char *unread;            /* bytes received but not read */
    size_t count;
};

/* A connection's counters before a tick, to detect which timer expired. */
struct tracked {
    u16_t local, remote;
    u8_t resent, probes;
    int waits;                        /* in TIME-WAIT */
};

static struct socket sockets[SOCKETS];
static int given;
static struct netif wire;
static struct tracked seen[TRACKED];
static int seen_count, ticking, prompt, plain_resets;
static uint64_t next_tick;
static struct stack_config config;

u32_t sys_now(void) { return (u32_t)(stack_now() / 1000); }

/* ---- Timers that expired ---- */

static struct tracked *seen_at(u16_t local, u16_t remote)
{
    for (int i = 0; i < seen_count; i++)
        if (seen[i].local == local && seen[i].remote == remote) return &seen[i];
    return NULL;
}

static struct tcp_pcb *active_at(u16_t local, u16_t remote)
{
    struct tcp_pcb *pcb = tcp_active_pcbs;
    while (pcb && (pcb->local_port != local || pcb->remote_port != remote)) pcb = pcb->next;
    return pcb;
}

static void remember(struct tcp_pcb *pcb, int waits)
{
    for (; pcb && seen_count < TRACKED; pcb = pcb->next) {
        struct tracked *at = &seen[seen_count++];
        at->local = pcb->local_port;
        at->remote = pcb->remote_port;
        at->resent = pcb->nrtx;
        at->probes = pcb->persist_probe;
        at->waits = waits;
    }
}

/* Reports which timer of a connection expired since the tick began. */
static void tell_expiry(u16_t local, u16_t remote)
{
    struct tracked *before = seen_at(local, remote);
    struct tcp_pcb *pcb = active_at(local, remote);
    if (!ticking || !before || !pcb) return;
    if (pcb->nrtx > before->resent) stack_expired(local, remote, "rto");
    if (pcb->persist_probe > before->probes) stack_expired(local, remote, "persist");
    before->resent = pcb->nrtx;
    before->probes = pcb->persist_probe;
}

static int waits_at(u16_t local, u16_t remote)
{
    struct tcp_pcb *pcb = tcp_tw_pcbs;
    while (pcb && (pcb->local_port != local || pcb->remote_port != remote)) pcb = pcb->next;
    return pcb != NULL;
}

static void tell_the_rest(void)
{
    for (int i = 0; i < seen_count; i++) {
        u16_t local = seen[i].local, remote = seen[i].remote;
        tell_expiry(local, remote);
        if (!active_at(local, remote) && !waits_at(local, remote))
            stack_expired(local, remote, seen[i].waits ? "2msl" : "giveup");
    }
}

/* ---- The wire ---- */

/* lwIP's receive window is fixed at compile time. If a scenario needs a smaller one, it is written into the outgoing SYN, and set in
 * the connection once lwIP has processed the peer's SYN. */
static void limit(struct tcp_pcb *pcb)
{
    if (config.window && pcb && pcb->rcv_wnd > config.window) pcb->rcv_wnd = pcb->rcv_ann_wnd = (tcpwnd_size_t)config.window;
}

static void narrow(unsigned char *segment)
{
    u16_t local = (u16_t)(segment[0] << 8 | segment[1]), remote = (u16_t)(segment[2] << 8 | segment[3]);
    if (!config.window || !(segment[13] & TCP_SYN)) return;
    segment[14] = (unsigned char)(config.window >> 8);
    segment[15] = (unsigned char)config.window;
    if (segment[13] & TCP_ACK) limit(active_at(local, remote));
}

/* In RFC 9293, 3.10.7.1, a reset that answers an acknowledgment acknowledges nothing; lwIP's does. It is changed to the RFC's form, so
 * that more of a run can be judged. */
static void make_plain(unsigned char *segment)
{
    static const unsigned char none[4];
    if (!(segment[13] & TCP_RST) || !memcmp(segment + 4, none, sizeof none)) return;
    segment[13] &= (unsigned char)~TCP_ACK;
    memset(segment + 8, 0, 4);
}

static err_t leave(struct netif *netif, struct pbuf *packet, const ip4_addr_t *to)
{
    static unsigned char bytes[LONGEST];
    u16_t count = pbuf_copy_partial(packet, bytes, packet->tot_len, 0);
    (void)netif;
    (void)to;
    if (count < 2 * HEADER) return ERR_OK;
    tell_expiry((u16_t)(bytes[HEADER] << 8 | bytes[HEADER + 1]), (u16_t)(bytes[HEADER + 2] << 8 | bytes[HEADER + 3]));
    narrow(bytes + HEADER);
    if (plain_resets) make_plain(bytes + HEADER);
    stack_out(bytes + HEADER, count - HEADER);
    return ERR_OK;
}

static err_t set_up(struct netif *netif)
{
    netif->output = leave;
    netif->mtu = (u16_t)(config.mss + 2 * HEADER);
    return ERR_OK;
}

static ip4_addr_t address(int host)
{
    ip4_addr_t ip;
    IP4_ADDR(&ip, 10, 0, 0, 1 + host);
    return ip;
}

/* Wraps a segment in an IPv4 packet. A scripted peer sends no checksums, so they are computed here. */
static struct pbuf *packet_of(const unsigned char *segment, size_t count)
{
    static unsigned char bytes[LONGEST];
    ip4_addr_t from = address(!config.host), to = address(config.host);
    unsigned total = (unsigned)count + HEADER;
    const unsigned char start[8] = { 0x45, 0, (unsigned char)(total >> 8), (unsigned char)total, 0, 0, 0, 0 };
    memcpy(bytes, start, sizeof start);
    bytes[8] = 64;
    bytes[9] = IP_PROTO_TCP;
    bytes[10] = bytes[11] = 0;
    memcpy(bytes + 12, &from.addr, 4);
    memcpy(bytes + 16, &to.addr, 4);
    memcpy(bytes + HEADER, segment, count);
    bytes[HEADER + 16] = bytes[HEADER + 17] = 0;
    u16_t sum = inet_chksum(bytes, HEADER);
    memcpy(bytes + 10, &sum, 2);
    struct pbuf *packet = pbuf_alloc(PBUF_RAW, (u16_t)total, PBUF_RAM);
    if (!packet) return NULL;
    pbuf_take(packet, bytes, (u16_t)total);
    pbuf_remove_header(packet, HEADER);
    ip_addr_t source, target;
    ip_addr_copy_from_ip4(source, from);
    ip_addr_copy_from_ip4(target, to);
    sum = ip_chksum_pseudo(packet, IP_PROTO_TCP, packet->tot_len, &source, &target);
    pbuf_add_header(packet, HEADER);
    pbuf_take_at(packet, &sum, 2, HEADER + 16);
    return packet;
}

/* ---- Callbacks from lwIP ---- */

static void failed(void *at, err_t cause)
{
    struct socket *socket = at;
    socket->pcb = NULL;
    if (cause == ERR_RST) socket->fault = socket->connected ? STACK_RESET : STACK_REFUSED;
    else if (cause != ERR_CLSD) socket->fault = STACK_TIMEOUT;
}

static err_t came(void *at, struct tcp_pcb *pcb, struct pbuf *packet, err_t cause)
{
    struct socket *socket = at;
    (void)pcb;
    (void)cause;
    if (!packet) {
        socket->eof = 1;
        return ERR_OK;
    }
    if (!socket->unread) socket->unread = malloc(ROOM);
    socket->count += pbuf_copy_partial(packet, socket->unread + socket->count, packet->tot_len, 0);
    pbuf_free(packet);
    return ERR_OK;
}

static err_t connected(void *at, struct tcp_pcb *pcb, err_t cause)
{
    (void)cause;
    limit(pcb);
    ((struct socket *)at)->connected = 1;
    return ERR_OK;
}

static struct socket *socket_of(struct tcp_pcb *pcb)
{
    struct socket *socket = &sockets[given++];
    socket->pcb = pcb;
    tcp_arg(pcb, socket);
    tcp_err(pcb, failed);
    tcp_recv(pcb, came);
    return socket;
}

static err_t joined(void *at, struct tcp_pcb *pcb, err_t cause)
{
    struct socket *listener = at;
    (void)cause;
    if (given == SOCKETS || listener->waiting == QUEUE) return ERR_MEM;
    struct socket *child = socket_of(pcb);
    child->connected = 1;
    listener->queue[listener->waiting++] = child;
    return ERR_OK;
}

/* ---- Functions that the driver calls ---- */

long stack_start(const struct stack_config *wanted)
{
    ip4_addr_t own, mask, none;
    config = *wanted;
    /* lwIP sends a window update only for this much; a smaller window would never be updated. */
    if (config.window && config.window < TCP_WND_UPDATE_THRESHOLD) return STACK_CANNOT;
    prompt = strstr(config.options, "prompt") != NULL;
    plain_resets = strstr(config.options, "plain-resets") != NULL;
    own = address(config.host);
    IP4_ADDR(&mask, 255, 255, 255, 0);
    IP4_ADDR(&none, 0, 0, 0, 0);
    lwip_init();
    netif_add(&wire, &own, &mask, &none, NULL, set_up, ip_input);
    netif_set_default(&wire);
    netif_set_up(&wire);
    netif_set_link_up(&wire);
    next_tick = TICK + 10000u * (unsigned)(config.host + 1);
    return STACK_OK;
}

/* Sends delayed acknowledgments at once. lwIP grows its window by two segments for an acknowledgment of two (RFC 3465), which RFC 5681, 3.1,
 * doesn't permit; for an acknowledgment of one segment, it grows by one. */
static void acknowledge(void)
{
    for (struct tcp_pcb *pcb = tcp_active_pcbs; pcb; pcb = pcb->next)
        if (pcb->flags & TF_ACK_DELAY) {
            tcp_set_flags(pcb, TF_ACK_NOW);
            tcp_output(pcb);
        }
}

void stack_input(const void *segment, size_t count)
{
    struct pbuf *packet = packet_of(segment, count);
    if (packet && wire.input(packet, &wire) != ERR_OK) pbuf_free(packet);
    if (prompt) acknowledge();
}

void stack_tick(void)
{
    if (stack_now() < next_tick) return;
    next_tick += TICK;
    seen_count = 0;
    remember(tcp_active_pcbs, 0);
    remember(tcp_tw_pcbs, 1);
    ticking = 1;
    tcp_tmr();
    tell_the_rest();
    ticking = 0;
}

uint64_t stack_next(void) { return next_tick; }

/* The number of lwIP's first SYN is a constant, which is one more at a listener, plus lwIP's clock, which is moved here. */
static void set_iss(int listens)
{
    u32_t own = FIRST_ISS + (u32_t)listens + tcp_ticks;
    tcp_ticks += stack_iss(own) - own;
}

static long answer_of(err_t error)
{
    if (error == ERR_USE) return STACK_INUSE;
    return error == ERR_OK ? STACK_OK : STACK_CANNOT;
}

long stack_listen(unsigned port, unsigned backlog)
{
    if (given == SOCKETS) return STACK_CANNOT;
    set_iss(1);
    struct tcp_pcb *pcb = tcp_new();
    err_t error = tcp_bind(pcb, IP_ADDR_ANY, (u16_t)port);
    if (error != ERR_OK) {
        tcp_close(pcb);
        return answer_of(error);
    }
    pcb = tcp_listen_with_backlog(pcb, (u8_t)(backlog < 255 ? backlog : 255));
    struct socket *socket = &sockets[given++];
    socket->pcb = pcb;
    socket->listens = 1;
    tcp_arg(pcb, socket);
    tcp_accept(pcb, joined);
    return socket - sockets;
}

long stack_open(unsigned local, unsigned remote)
{
    ip4_addr_t other = address(!config.host);
    ip_addr_t peer;
    ip_addr_copy_from_ip4(peer, other);
    if (given == SOCKETS) return STACK_CANNOT;
    set_iss(0);
    struct tcp_pcb *pcb = tcp_new();
    err_t error = tcp_bind(pcb, IP_ADDR_ANY, (u16_t)local);
    if (error != ERR_OK) {
        tcp_close(pcb);
        return answer_of(error);
    }
    struct socket *socket = socket_of(pcb);
    error = tcp_connect(pcb, &peer, (u16_t)remote, connected);
    return error == ERR_OK ? socket - sockets : answer_of(error);
}

long stack_await(long number)
{
    struct socket *socket = &sockets[number];
    if (socket->listens) return STACK_NOTCONN;
    if (socket->fault) return socket->fault;
    if (socket->connected) return STACK_OK;
    return socket->pcb ? STACK_AGAIN : STACK_CLOSED;
}

long stack_accept(long number)
{
    struct socket *listener = &sockets[number];
    if (!listener->listens) return STACK_NOTCONN;
    if (!listener->waiting) return STACK_AGAIN;
    struct socket *child = listener->queue[0];
    memmove(listener->queue, listener->queue + 1, sizeof listener->queue - sizeof listener->queue[0]);
    listener->waiting--;
    return child - sockets;
}

long stack_send(long number, const void *bytes, size_t count)
{
    struct socket *socket = &sockets[number];
    if (socket->listens) return STACK_NOTCONN;
    if (socket->fault) return socket->fault;
    if (!socket->pcb || socket->shut) return STACK_CLOSED;
    if (socket->pcb->state == SYN_SENT || socket->pcb->state == SYN_RCVD) return STACK_AGAIN;
    size_t room = tcp_sndbuf(socket->pcb);
    if (count > room) count = room;
    while (count && tcp_write(socket->pcb, bytes, (u16_t)count, TCP_WRITE_FLAG_COPY) != ERR_OK) count /= 2;
    if (!count) return STACK_AGAIN;
    tcp_output(socket->pcb);
    return (long)count;
}

long stack_recv(long number, void *bytes, size_t most)
{
    struct socket *socket = &sockets[number];
    if (socket->listens) return STACK_NOTCONN;
    if (socket->count) {
        if (most > socket->count) most = socket->count;
        memcpy(bytes, socket->unread, most);
        socket->count -= most;
        memmove(socket->unread, socket->unread + most, socket->count);
        if (socket->pcb) tcp_recved(socket->pcb, (u16_t)most);
        return (long)most;
    }
    if (socket->eof) return STACK_EOF;
    if (socket->fault) return socket->fault;
    return socket->pcb ? STACK_AGAIN : STACK_NOTCONN;
}

long stack_shut(long number)
{
    struct socket *socket = &sockets[number];
    if (socket->listens || (!socket->pcb && !socket->fault && !socket->connected)) return STACK_NOTCONN;
    if (socket->fault) return socket->fault;
    if (!socket->pcb) return STACK_NOTCONN;
    err_t error = tcp_shutdown(socket->pcb, 0, 1);
    if (error == ERR_CONN) return STACK_NOTCONN;
    socket->shut = 1;
    return answer_of(error);
}

/* A closed connection no longer has a socket to call. */
static void forget(struct socket *socket)
{
    tcp_arg(socket->pcb, NULL);
    if (!socket->listens) {
        tcp_err(socket->pcb, NULL);
        tcp_recv(socket->pcb, NULL);
    }
}

long stack_close(long number)
{
    struct socket *socket = &sockets[number];
    if (!socket->pcb) return STACK_OK;
    forget(socket);
    /* lwIP treats a window that isn't fully open as unread data, and resets. */
    if (!socket->listens && config.window && !socket->count) socket->pcb->rcv_wnd = TCP_WND_MAX(socket->pcb);
    while (tcp_close(socket->pcb) != ERR_OK) tcp_tmr();
    socket->pcb = NULL;
    return STACK_OK;
}

long stack_abort(long number)
{
    struct socket *socket = &sockets[number];
    if (!socket->pcb) return STACK_OK;
    forget(socket);
    if (socket->listens) tcp_close(socket->pcb);
    else tcp_abort(socket->pcb);
    socket->pcb = NULL;
    return STACK_OK;
}

const char *stack_state(long number)
{
    static const char *const names[] = { "CLOSED", "LISTEN", "SYN-SENT", "SYN-RECEIVED", "ESTABLISHED", "FIN-WAIT-1", "FIN-WAIT-2",
                                         "CLOSE-WAIT", "CLOSING", "LAST-ACK", "TIME-WAIT" };
    struct socket *socket = &sockets[number];
    if (socket->listens) return "LISTEN";
    return socket->pcb ? names[socket->pcb->state] : "CLOSED";
}
