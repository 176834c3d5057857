package main

import (
	"reflect"
	"unsafe"

	"go.etcd.io/etcd/raft/v3"
	pb "go.etcd.io/etcd/raft/v3/raftpb"
	"go.etcd.io/etcd/raft/v3/tracker"
)

// private is what RawNode keeps to itself. All of it is only looked at, except the timeout, since a bench can't do with one that is drawn,
// and the role and leader that the last Ready had.
type private struct {
	timeout *int
	// It has `AutoLeave`, which a Status leaves out: etcd's Config.Clone doesn't copy it.
	tracker *tracker.ProgressTracker
	// What of the log isn't in the storage: the index of its first entry, its entries, and a snapshot or nil.
	unsavedFrom *uint64
	unsaved     *[]pb.Entry
	restored    **pb.Snapshot
	soft        **raft.SoftState
}

func (n *node) findPrivate() {
	raw := reflect.ValueOf(n.raw).Elem()
	inner := raw.FieldByName("raft").Elem()
	unstable := inner.FieldByName("raftLog").Elem().FieldByName("unstable")
	n.private = private{
		(*int)(part(inner, "randomizedElectionTimeout")), (*tracker.ProgressTracker)(part(inner, "prs")), (*uint64)(part(unstable, "offset")),
		(*[]pb.Entry)(part(unstable, "entries")), (**pb.Snapshot)(part(unstable, "snapshot")),
		(**raft.SoftState)(part(raw, "prevSoftSt")),
	}
}

// part is where a field of a struct is.
func part(of reflect.Value, name string) unsafe.Pointer {
	return unsafe.Pointer(of.FieldByName(name).UnsafeAddr())
}
