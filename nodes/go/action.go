package raftbench

// action is what a call does to a node; nil if it has no such call.
func action(n Node, c *call, lost Message) func() error {
	switch c.Call {
	case "campaign":
		return n.Campaign
	case "propose":
		return func() error { return n.Propose(c.Data) }
	case "tick":
		return done(n.Tick)
	case "advance":
		return done(n.Advance)
	}
	return optionalAction(n, c, lost)
}

// done is what can't be declined.
func done(does func()) func() error {
	return func() error {
		does()
		return nil
	}
}

func optionalAction(n Node, c *call, lost Message) func() error {
	switch c.Call {
	case "propose_change":
		if n, is := n.(Changer); is {
			return func() error { return n.ProposeChange(c.Change, c.V1) }
		}
	case "set_timeout":
		if n, is := n.(TimeoutSetter); is {
			return done(func() { n.SetTimeout(c.Ticks) })
		}
	case "transfer":
		if n, is := n.(Transferer); is {
			return func() error { return n.Transfer(c.To) }
		}
	case "forget_leader":
		if n, is := n.(LeaderForgetter); is {
			return n.ForgetLeader
		}
	case "report_unreachable":
		if n, is := n.(UnreachableReporter); is {
			return done(func() { n.ReportUnreachable(c.To) })
		}
	case "compact":
		if n, is := n.(Compacter); is {
			return func() error { return n.Compact(c.Index) }
		}
	case "restart":
		if n, is := n.(Restarter); is {
			return done(func() { n.Restart(c.Saved) })
		}
	case "lost":
		if n, is := n.(Loser); is {
			return done(func() { n.Lose(lost) })
		}
	case "read":
		if n, is := n.(Reader); is {
			return func() error { return n.Read(c.ID) }
		}
	case "report_snapshot":
		if n, is := n.(SnapshotReporter); is {
			return done(func() { n.ReportSnapshot(c.To, c.Failed) })
		}
	}
	return nil
}
