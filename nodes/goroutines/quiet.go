package goroutines

import "runtime"

// WaitUntilQuiet lets the library's goroutines run until all of them are blocked: then the call is over. Only the next call wakes them,
// since timers don't ring by themselves, and the adapter's transport has no sockets. The build adds OthersCanRun to Go's runtime.
func WaitUntilQuiet() {
	for runtime.Gosched(); runtime.OthersCanRun(); {
		runtime.Gosched()
	}
}
