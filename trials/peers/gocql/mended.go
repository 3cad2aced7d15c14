package gocql

// peerHas tells whether a host is among some.
func peerHas(hosts []*HostInfo, host *HostInfo) bool {
	for _, it := range hosts {
		if it == host {
			return true
		}
	}
	return false
}
