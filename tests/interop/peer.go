// The other foreign side of the interoperation tests: pion's SCTP, one association over UDP on loopback.
//
//	peer connect|listen here=UDP there=UDP send=N take=N first=both|us|peer end=shutdown|abort|peer-shutdown|peer-abort seconds=S
//
// The plan is "small": pion cuts messages at 1,200 bytes and can be told no other length, so each is a chunk of at most 512.
package main

import (
	"bytes"
	"context"
	"fmt"
	"net"
	"os"
	"strconv"
	"strings"
	"time"

	"github.com/pion/logging"
	"github.com/pion/sctp"
)

const (
	stream   = 3
	numbered = 0x52000000
	// Oilwhisper holds 128 chunks and refuses what is further ahead, while its window counts each as 512 bytes: of shorter ones
	// fewer bytes may be on the way than it says.
	onTheWay = 24000
	ours     = 0
	theirs   = 1
)

var words = map[string]string{"role": "connect", "here": "19899", "there": "29899", "send": "0", "take": "0",
	"first": "both", "end": "shutdown", "seconds": "60"}

func fault(format string, values ...interface{}) {
	fmt.Fprintf(os.Stderr, "pion: "+format+"\n", values...)
	os.Exit(1)
}

func must(err error, what string) {
	if err != nil {
		fault("%s: %v", what, err)
	}
}

func number(name string) int {
	n, err := strconv.Atoi(words[name])
	must(err, name)
	return n
}

func message(direction, i uint32) []byte {
	word := i*2654435761 + direction*2654435769
	made := make([]byte, 1+i*31%512)
	for at := range made {
		made[at] = byte(word>>(8*(at&3))) ^ byte(at*31)
	}
	return made
}

func drain(s *sctp.Stream, most uint64) {
	for s.BufferedAmount() > most {
		time.Sleep(200 * time.Microsecond)
	}
}

func sendAll(s *sctp.Stream) {
	for i := 0; i < number("send"); i++ {
		drain(s, onTheWay)
		_, err := s.WriteSCTP(message(theirs, uint32(i)), sctp.PayloadProtocolIdentifier(numbered+i))
		must(err, "write")
	}
}

func takeAll(s *sctp.Stream) {
	buffer := make([]byte, 65536)
	for i := 0; i < number("take"); i++ {
		length, ppid, err := s.ReadSCTP(buffer)
		must(err, "read")
		if uint32(ppid) != numbered+uint32(i) || !bytes.Equal(buffer[:length], message(ours, uint32(i))) {
			fault("message %d differs: %d bytes, identifier %x", i, length, uint32(ppid))
		}
	}
	fmt.Printf("pion: %d messages compared\n", number("take"))
}

func end(a *sctp.Association, s *sctp.Stream) {
	switch words["end"] {
	case "shutdown":
		// pion shuts down without what it has not sent yet.
		drain(s, 0)
		limit, cancel := context.WithTimeout(context.Background(), 20*time.Second)
		defer cancel()
		must(a.Shutdown(limit), "shutdown")
	case "abort":
		a.Abort("as planned")
	default:
		_, _, err := s.ReadSCTP(make([]byte, 65536))
		if err == nil {
			fault("a message came after the last")
		}
		if strings.Contains(strings.ToLower(err.Error()), "abort") != (words["end"] == "peer-abort") {
			fault("it ended otherwise: %v", err)
		}
	}
}

func main() {
	for _, word := range os.Args[1:] {
		if at := strings.IndexByte(word, '='); at >= 0 {
			words[word[:at]] = word[at+1:]
		} else {
			words["role"] = word
		}
	}
	time.AfterFunc(time.Duration(number("seconds"))*time.Second, func() { fault("not over in time") })
	loopback := net.IPv4(127, 0, 0, 1)
	socket, err := net.DialUDP("udp4", &net.UDPAddr{IP: loopback, Port: number("here")}, &net.UDPAddr{IP: loopback, Port: number("there")})
	must(err, "socket")
	config := sctp.Config{NetConn: socket, LoggerFactory: logging.NewDefaultLoggerFactory()}
	begin := sctp.Server
	if words["role"] == "connect" {
		begin = sctp.Client
	} else {
		fmt.Println("pion: listening")
	}
	a, err := begin(config)
	must(err, "association")
	s, err := a.OpenStream(stream, numbered)
	must(err, "stream")
	if words["first"] == "us" {
		takeAll(s)
	}
	sent := make(chan bool)
	go func() { sendAll(s); close(sent) }()
	if words["first"] == "peer" {
		<-sent
	}
	if words["first"] != "us" {
		takeAll(s)
	}
	<-sent
	end(a, s)
	fmt.Println("pion: ended as planned")
}
