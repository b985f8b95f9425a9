// raft NODES COMMANDS BATCH: as many nodes of hashicorp/raft in one process, over its own transport and logs in memory, take commands: each
// adds an amount to one of sixteen keys, and keeps the last rank and reply of the command's session. BATCH commands are one entry of the
// log. Prints how many commands the leader has applied.
package main

import (
	"encoding/binary"
	"fmt"
	"io"
	"os"
	"strconv"
	"time"

	"github.com/hashicorp/raft"
)

const (
	keys     = 16
	sessions = 8
	wait     = 30 * time.Second
	// How many entries may be under way, as a node of a run has up to four.
	underWay = 4
	// A key, a session, a rank and an amount.
	commandBytes = 16
)

type session struct{ rank, reply int64 }

type table struct {
	amounts  map[uint32]int64
	sessions map[uint32]session
	taken    int
}

func newTable() *table {
	return &table{amounts: map[uint32]int64{}, sessions: map[uint32]session{}}
}

func (t *table) Apply(entry *raft.Log) interface{} {
	var reply int64
	for at := 0; at+commandBytes <= len(entry.Data); at += commandBytes {
		key := binary.LittleEndian.Uint32(entry.Data[at:])
		by := binary.LittleEndian.Uint32(entry.Data[at+4:])
		rank := int64(binary.LittleEndian.Uint32(entry.Data[at+8:]))
		reply = t.amounts[key] + int64(binary.LittleEndian.Uint32(entry.Data[at+12:]))
		t.amounts[key] = reply
		t.sessions[by] = session{rank, reply}
		t.taken++
	}
	return reply
}

type nothing struct{}

func (nothing) Persist(sink raft.SnapshotSink) error { return sink.Close() }
func (nothing) Release()                             {}

func (t *table) Snapshot() (raft.FSMSnapshot, error) { return nothing{}, nil }
func (t *table) Restore(from io.ReadCloser) error    { return from.Close() }

func must(err error) {
	if err != nil {
		fmt.Fprintln(os.Stderr, "raft:", err)
		os.Exit(1)
	}
}

func number(at int, least, most int) int {
	if at < len(os.Args) {
		if n, err := strconv.Atoi(os.Args[at]); err == nil && least <= n && n <= most {
			return n
		}
	}
	fmt.Fprintln(os.Stderr, "usage: raft NODES COMMANDS BATCH")
	os.Exit(2)
	return 0
}

// Nodes that know each other, and their tables.
func cluster(count int) ([]*raft.Raft, []*table) {
	var servers []raft.Server
	var addresses []raft.ServerAddress
	var transports []*raft.InmemTransport
	for i := 0; i < count; i++ {
		address, transport := raft.NewInmemTransport("")
		addresses, transports = append(addresses, address), append(transports, transport)
		servers = append(servers, raft.Server{ID: raft.ServerID(fmt.Sprint("n", i+1)), Address: address})
	}
	var nodes []*raft.Raft
	var tables []*table
	for i, transport := range transports {
		for _, other := range transports {
			transport.Connect(other.LocalAddr(), other)
		}
		config := raft.DefaultConfig()
		config.LocalID = servers[i].ID
		config.LogLevel = "ERROR"
		config.HeartbeatTimeout, config.ElectionTimeout = 200*time.Millisecond, 200*time.Millisecond
		config.LeaderLeaseTimeout = 100 * time.Millisecond
		logs, own := raft.NewInmemStore(), newTable()
		snapshots := raft.NewInmemSnapshotStore()
		must(raft.BootstrapCluster(config, logs, logs, snapshots, transport, raft.Configuration{Servers: servers}))
		node, err := raft.NewRaft(config, own, logs, logs, snapshots, transport)
		must(err)
		nodes, tables = append(nodes, node), append(tables, own)
	}
	return nodes, tables
}

func leader(nodes []*raft.Raft) int {
	for until := time.Now().Add(wait); time.Now().Before(until); time.Sleep(time.Millisecond) {
		for i, node := range nodes {
			if node.State() == raft.Leader {
				return i
			}
		}
	}
	must(fmt.Errorf("no leader"))
	return 0
}

func main() {
	count, commands, batch := number(1, 1, 8), number(2, 0, 1000000), number(3, 1, 1000)
	nodes, tables := cluster(count)
	lead := leader(nodes)
	begun := time.Now()
	var under []raft.ApplyFuture
	for at := 0; at < commands; at += batch {
		var entry []byte
		for i := at; i < at+batch && i < commands; i++ {
			var command [commandBytes]byte
			binary.LittleEndian.PutUint32(command[0:], uint32(i%keys))
			binary.LittleEndian.PutUint32(command[4:], uint32(i%sessions))
			binary.LittleEndian.PutUint32(command[8:], uint32(i/sessions+1))
			binary.LittleEndian.PutUint32(command[12:], 1)
			entry = append(entry, command[:]...)
		}
		under = append(under, nodes[lead].Apply(entry, wait))
		if len(under) == underWay {
			must(under[0].Error())
			under = under[1:]
		}
	}
	for _, each := range under {
		must(each.Error())
	}
	fmt.Println(tables[lead].taken, time.Since(begun).Microseconds())
}
