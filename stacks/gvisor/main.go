// The adapter of gVisor's netstack for the runner: it handles the commands of driver.c in Go.
//
// The stack's goroutines run on one processor, and each command runs them until all wait, so that runs are repeatable. The clock is the
// runner's.
package main

import (
	"bufio"
	"bytes"
	"container/heap"
	"encoding/binary"
	"encoding/hex"
	"fmt"
	"math/rand"
	"os"
	"runtime"
	"strconv"
	"strings"
	"sync"
	"time"

	"gvisor.dev/gvisor/pkg/bufferv2"
	"gvisor.dev/gvisor/pkg/tcpip"
	"gvisor.dev/gvisor/pkg/tcpip/checksum"
	"gvisor.dev/gvisor/pkg/tcpip/hash/jenkins"
	"gvisor.dev/gvisor/pkg/tcpip/header"
	"gvisor.dev/gvisor/pkg/tcpip/link/channel"
	"gvisor.dev/gvisor/pkg/tcpip/network/ipv4"
	"gvisor.dev/gvisor/pkg/tcpip/stack"
	"gvisor.dev/gvisor/pkg/tcpip/transport/tcp"
	"gvisor.dev/gvisor/pkg/waiter"
)

const (
	nic      = 1
	ipHeader = 20
	yields   = 100 // more than the number of goroutines that ever wait in a row
)

// ---- The clock ----

type timer struct {
	clock *clock
	at    int64
	order int64
	call  func()
	index int // in the heap, or -1
}

type timers []*timer

func (t timers) Len() int { return len(t) }
func (t timers) Less(a, b int) bool {
	return t[a].at < t[b].at || t[a].at == t[b].at && t[a].order < t[b].order
}
func (t timers) Swap(a, b int) {
	t[a], t[b] = t[b], t[a]
	t[a].index, t[b].index = a, b
}
func (t *timers) Push(x any) {
	x.(*timer).index = len(*t)
	*t = append(*t, x.(*timer))
}
func (t *timers) Pop() any {
	last := (*t)[len(*t)-1]
	*t = (*t)[:len(*t)-1]
	last.index = -1
	return last
}

// clock counts nanoseconds, and doesn't advance while a command runs.
type clock struct {
	mu    sync.Mutex
	now   int64
	ahead int64 // by how much the stack's clock is ahead
	order int64
	due   timers
	// around runs the timers that are due, and observes the results.
	around func(call func())
}

func (c *clock) Now() time.Time {
	c.mu.Lock()
	defer c.mu.Unlock()
	return time.Unix(1700000000, c.now)
}

func (c *clock) NowMonotonic() tcpip.MonotonicTime {
	c.mu.Lock()
	defer c.mu.Unlock()
	return tcpip.MonotonicTime{}.Add(time.Duration(c.now + c.ahead))
}

func (c *clock) AfterFunc(d time.Duration, call func()) tcpip.Timer {
	t := &timer{clock: c, call: call, index: -1}
	t.Reset(d)
	return t
}

func (t *timer) Stop() bool {
	t.clock.mu.Lock()
	defer t.clock.mu.Unlock()
	if t.index < 0 {
		return false
	}
	heap.Remove(&t.clock.due, t.index)
	return true
}

func (t *timer) Reset(d time.Duration) {
	c := t.clock
	c.mu.Lock()
	defer c.mu.Unlock()
	if t.index >= 0 {
		heap.Remove(&c.due, t.index)
	}
	if d < 0 {
		d = 0
	}
	c.order++
	t.at, t.order = c.now+int64(d), c.order
	heap.Push(&c.due, t)
}

// pass advances to a moment, and runs the timers that are due until then.
func (c *clock) pass(moment int64) {
	for {
		c.mu.Lock()
		if len(c.due) == 0 || c.due[0].at > moment {
			if moment > c.now {
				c.now = moment
			}
			c.mu.Unlock()
			return
		}
		t := heap.Pop(&c.due).(*timer)
		if t.at > c.now {
			c.now = t.at
		}
		c.mu.Unlock()
		c.around(t.call)
	}
}

// next is the microsecond at which the next timer is due.
func (c *clock) next() string {
	c.mu.Lock()
	defer c.mu.Unlock()
	if len(c.due) == 0 {
		return "-"
	}
	return strconv.FormatInt((c.due[0].at+999)/1000, 10)
}

// settle lets the stack's goroutines run until all wait.
func settle() {
	for i := 0; i < yields; i++ {
		runtime.Gosched()
	}
}

// ---- The host ----

type socket struct {
	ep        tcpip.Endpoint
	listens   bool
	connected bool
	timeouts  uint64 // how often its retransmission timer expired
	waits     bool   // it is in TIME-WAIT
}

type host struct {
	clock   *clock
	out     *bufio.Writer
	stack   *stack.Stack
	wire    *channel.Endpoint
	own     tcpip.Address
	other   tcpip.Address
	sockets []*socket
	closed  map[uint32]bool // local and remote port: the peer's last window was 0
	secret  uint32          // a part of each initial sequence number
	iss     *uint32         // the initial sequence number of the next connection, if the scenario sets it
}

// drawn is a source of randomness that keeps the numbers drawn from it.
type drawn struct {
	rand.Source64
	numbers []int64
}

func (d *drawn) Int63() int64 {
	d.numbers = append(d.numbers, d.Source64.Int63())
	return d.numbers[len(d.numbers)-1]
}

// around runs the timers that are due, and reports which expired. The stack counts timeouts, including probes of a window of 0, but not those of
// SYNs or of connections that weren't accepted.
func (h *host) around(call func()) {
	h.tell()
	for _, s := range h.sockets {
		s.waits = s.state() == "TIME-WAIT"
	}
	call()
	settle()
	for _, s := range h.sockets {
		id := s.ep.Info().(*stack.TransportEndpointInfo).ID
		if s.waits && s.state() == "CLOSED" {
			fmt.Fprintf(h.out, "expired %d %d 2msl\n", id.LocalPort, id.RemotePort)
		}
		if timeouts := s.ep.Stats().(*tcp.Stats).SendErrors.Timeouts.Value(); timeouts > s.timeouts {
			s.timeouts = timeouts
			fmt.Fprintf(h.out, "expired %d %d %s\n", id.LocalPort, id.RemotePort, h.timer(s, id.LocalPort, id.RemotePort))
		}
	}
	h.tell()
}

// timer is the timer of a timeout.
func (h *host) timer(s *socket, local, remote uint16) string {
	if s.state() == "CLOSED" {
		return "giveup"
	}
	if h.closed[uint32(local)<<16|uint32(remote)] {
		return "persist"
	}
	return "rto"
}

func check(err tcpip.Error) {
	if err != nil {
		fmt.Fprintln(os.Stderr, err)
		os.Exit(1)
	}
}

func address(number int) tcpip.Address { return tcpip.Address([]byte{10, 0, 0, byte(1 + number)}) }

func start(number int, seed int64, mss, window int, options string) *host {
	h := &host{clock: &clock{}, own: address(number), other: address(1 - number), closed: map[uint32]bool{}}
	h.clock.around = h.around
	h.wire = channel.New(4096, uint32(mss+2*ipHeader), "")
	source := rand.New(rand.NewSource(2*seed + int64(number)))
	random := &drawn{Source64: rand.NewSource(2*seed + int64(number)).(rand.Source64)}
	newTCP := func(s *stack.Stack) stack.TransportProtocol {
		first := len(random.numbers)
		protocol := tcp.NewProtocol(s)
		h.secret = uint32(random.numbers[first] >> 31)
		return protocol
	}
	h.stack = stack.New(stack.Options{
		NetworkProtocols:   []stack.NetworkProtocolFactory{ipv4.NewProtocol},
		TransportProtocols: []stack.TransportProtocolFactory{newTCP},
		Clock:              h.clock,
		RandSource:         random,
		SecureRNG:          source,
	})
	check(h.stack.CreateNIC(nic, h.wire))
	own := tcpip.ProtocolAddress{Protocol: ipv4.ProtocolNumber, AddressWithPrefix: h.own.WithPrefix()}
	check(h.stack.AddProtocolAddress(nic, own, stack.AddressProperties{}))
	h.stack.SetRouteTable([]tcpip.Route{{Destination: header.IPv4EmptySubnet, NIC: nic}})
	h.set(window, options)
	return h
}

// set turns off what format versions 1 to 3 don't permit, unless the profile's options turn it on.
func (h *host) set(window int, options string) {
	sack := tcpip.TCPSACKEnabled(strings.Contains(options, "sack"))
	check(h.stack.SetTransportProtocolOption(tcp.ProtocolNumber, &sack))
	recovery := tcpip.TCPRecovery(0)
	if strings.Contains(options, "rack") {
		recovery = tcpip.TCPRACKLossDetection
	}
	check(h.stack.SetTransportProtocolOption(tcp.ProtocolNumber, &recovery))
	moderate := tcpip.TCPModerateReceiveBufferOption(false)
	check(h.stack.SetTransportProtocolOption(tcp.ProtocolNumber, &moderate))
	if window == 0 {
		window = 65536
	}
	room := tcpip.TCPReceiveBufferSizeRangeOption{Min: 1, Default: window, Max: 1 << 20}
	check(h.stack.SetTransportProtocolOption(tcp.ProtocolNumber, &room))
}

// begin moves the stack's clock so that a connection begins at the wanted number, the sum of a hash and the time in units of 64 ns.
func (h *host) begin(local, remote uint16) {
	if h.iss == nil {
		return
	}
	ports := make([]byte, 4)
	binary.LittleEndian.PutUint16(ports, local)
	binary.LittleEndian.PutUint16(ports[2:], remote)
	hash := jenkins.Sum32(h.secret)
	for _, part := range [][]byte{[]byte(h.own), []byte(h.other), ports} {
		hash.Write(part)
	}
	h.clock.ahead = int64(*h.iss-hash.Sum32()-uint32(h.clock.now>>6)) << 6
	h.iss = nil
}

// input delivers a segment, in a packet with correct checksums.
func (h *host) input(segment []byte) {
	packet := make([]byte, ipHeader+len(segment))
	ip := header.IPv4(packet)
	ip.Encode(&header.IPv4Fields{TotalLength: uint16(len(packet)), TTL: 64, Protocol: uint8(tcp.ProtocolNumber), SrcAddr: h.other, DstAddr: h.own})
	ip.SetChecksum(^ip.CalculateChecksum())
	copy(packet[ipHeader:], segment)
	t := header.TCP(packet[ipHeader:])
	t.SetChecksum(0)
	sum := header.PseudoHeaderChecksum(tcp.ProtocolNumber, h.other, h.own, uint16(len(segment)))
	offset := int(t.DataOffset())
	if offset > len(segment) {
		return
	}
	t.SetChecksum(^checksum.Checksum(segment[offset:], checksum.Checksum(t[:offset], sum)))
	h.closed[uint32(t.DestinationPort())<<16|uint32(t.SourcePort())] = t.WindowSize() == 0
	if t.Flags() == header.TCPFlagSyn {
		h.begin(t.DestinationPort(), t.SourcePort())
	}
	buffer := stack.NewPacketBuffer(stack.PacketBufferOptions{Payload: bufferv2.MakeWithData(packet)})
	h.wire.InjectInbound(ipv4.ProtocolNumber, buffer)
	buffer.DecRef()
}

// tell prints the segments that were sent.
func (h *host) tell() {
	settle()
	for {
		packet := h.wire.Read()
		if packet.IsNil() {
			return
		}
		bytes := packet.ToView()
		fmt.Fprintf(h.out, "out %x\n", bytes.AsSlice()[ipHeader:])
		packet.DecRef()
	}
}

// ---- Calls ----

func word(err tcpip.Error) string {
	switch err.(type) {
	case nil:
		return "ok"
	case *tcpip.ErrWouldBlock:
		return "again"
	case *tcpip.ErrClosedForReceive:
		return "eof"
	case *tcpip.ErrClosedForSend:
		return "closed"
	case *tcpip.ErrNotConnected, *tcpip.ErrInvalidEndpointState:
		return "notconn"
	case *tcpip.ErrConnectionRefused:
		return "refused"
	case *tcpip.ErrConnectionReset, *tcpip.ErrConnectionAborted, *tcpip.ErrAborted:
		return "reset"
	case *tcpip.ErrTimeout, *tcpip.ErrHostUnreachable:
		return "timeout"
	case *tcpip.ErrPortInUse, *tcpip.ErrAlreadyConnected:
		return "inuse"
	}
	fmt.Fprintf(os.Stderr, "an error with no known answer: %v\n", err)
	return "cannot"
}

func (h *host) given(s *socket) string {
	h.sockets = append(h.sockets, s)
	return fmt.Sprintf("ok %d", len(h.sockets)-1)
}

func (h *host) fresh(port int) (*socket, tcpip.Error) {
	ep, err := h.stack.NewEndpoint(tcp.ProtocolNumber, ipv4.ProtocolNumber, &waiter.Queue{})
	check(err)
	ep.SocketOptions().SetReuseAddress(true)
	if err := ep.Bind(tcpip.FullAddress{NIC: nic, Addr: h.own, Port: uint16(port)}); err != nil {
		ep.Close()
		return nil, err
	}
	return &socket{ep: ep}, nil
}

func (h *host) listen(port, backlog int) string {
	s, err := h.fresh(port)
	if err == nil {
		// As gVisor's own system call does, for which a queue may hold one connection more (extra 1). With a queue of one, this stack would
		// answer each SYN with a cookie, and never retransmit its SYN ACK.
		err = s.ep.Listen(backlog + 1)
	}
	if err != nil {
		return word(err)
	}
	s.listens = true
	return h.given(s)
}

func (h *host) open(local, remote int) string {
	s, err := h.fresh(local)
	if err != nil {
		return word(err)
	}
	h.begin(uint16(local), uint16(remote))
	err = s.ep.Connect(tcpip.FullAddress{NIC: nic, Addr: h.other, Port: uint16(remote)})
	if _, started := err.(*tcpip.ErrConnectStarted); err != nil && !started {
		s.ep.Close()
		return word(err)
	}
	return h.given(s)
}

// names of the states in RFC 9293.
var names = map[tcp.EndpointState]string{
	tcp.StateEstablished: "ESTABLISHED", tcp.StateSynSent: "SYN-SENT", tcp.StateSynRecv: "SYN-RECEIVED", tcp.StateFinWait1: "FIN-WAIT-1",
	tcp.StateFinWait2: "FIN-WAIT-2", tcp.StateTimeWait: "TIME-WAIT", tcp.StateCloseWait: "CLOSE-WAIT", tcp.StateLastAck: "LAST-ACK",
	tcp.StateListen: "LISTEN", tcp.StateClosing: "CLOSING", tcp.StateConnecting: "SYN-SENT",
}

func (s *socket) state() string {
	if name, known := names[tcp.EndpointState(s.ep.State())]; known {
		return name
	}
	return "CLOSED"
}

func (s *socket) await() string {
	if s.listens {
		return "notconn"
	}
	switch s.state() {
	case "SYN-SENT", "SYN-RECEIVED":
		return "again"
	case "CLOSED":
		if err := s.ep.LastError(); err != nil {
			return word(err)
		}
		if !s.connected {
			return "closed"
		}
	}
	s.connected = true
	return "ok"
}

func (h *host) accept(s *socket) string {
	ep, _, err := s.ep.Accept(nil)
	if err != nil {
		return word(err)
	}
	return h.given(&socket{ep: ep, connected: true})
}

func (s *socket) send(b []byte) string {
	if s.listens {
		return "notconn"
	}
	var from bytes.Reader
	from.Reset(b)
	count, err := s.ep.Write(&from, tcpip.WriteOptions{})
	if tcp.EndpointState(s.ep.State()) == tcp.StateError {
		if cause := s.ep.LastError(); cause != nil {
			return word(cause)
		}
	}
	if err != nil {
		return word(err)
	}
	return fmt.Sprintf("ok %d", count)
}

func (s *socket) recv(most int) string {
	if s.listens {
		return "notconn"
	}
	var into bytes.Buffer
	_, err := s.ep.Read(&tcpip.LimitedWriter{W: &into, N: int64(most)}, tcpip.ReadOptions{})
	if into.Len() > 0 {
		return "data " + hex.EncodeToString(into.Bytes())
	}
	return word(err)
}

func (s *socket) shut() string {
	if s.listens || s.state() == "SYN-SENT" {
		return "notconn"
	}
	return word(s.ep.Shutdown(tcpip.ShutdownWrite))
}

func (s *socket) close() string {
	s.ep.Close()
	return "ok"
}

func (s *socket) abort() string {
	if s.listens {
		return s.close()
	}
	s.ep.Abort()
	return "ok"
}

// ---- Commands ----

func (h *host) do(words []string) string {
	number := func(at int) int {
		n, _ := strconv.Atoi(words[at])
		return n
	}
	switch words[0] {
	case "tick":
		return "ok"
	case "iss":
		iss := uint32(number(1))
		h.iss = &iss
		return "ok"
	case "in":
		b, _ := hex.DecodeString(words[1])
		h.input(b)
		return "ok"
	case "listen":
		return h.listen(number(1), number(2))
	case "open":
		return h.open(number(1), number(2))
	}
	s := h.sockets[number(1)]
	switch words[0] {
	case "await":
		return s.await()
	case "accept":
		return h.accept(s)
	case "send":
		b, _ := hex.DecodeString(words[2])
		return s.send(b)
	case "recv":
		return s.recv(number(2))
	case "shut":
		return s.shut()
	case "close":
		return s.close()
	case "abort":
		return s.abort()
	case "status":
		return "state " + s.state()
	}
	return "cannot"
}

func main() {
	runtime.GOMAXPROCS(1)
	out := bufio.NewWriter(os.Stdout)
	lines := bufio.NewScanner(os.Stdin)
	lines.Buffer(nil, 1<<20)
	var h *host
	for lines.Scan() {
		words := strings.Fields(lines.Text())
		answer := "ok"
		if words[0] == "start" {
			var number, mss, window int
			var seed int64
			fmt.Sscan(strings.Join(words[1:5], " "), &number, &seed, &mss, &window)
			h = start(number, seed, mss, window, strings.Join(words[5:], " "))
			h.out = out
		} else {
			moment, _ := strconv.ParseInt(words[0], 10, 64)
			h.clock.pass(moment * 1000)
			h.tell()
			answer = h.do(words[1:])
			h.tell()
		}
		fmt.Fprintf(out, "= %s %s\n", h.clock.next(), answer)
		out.Flush()
	}
}
