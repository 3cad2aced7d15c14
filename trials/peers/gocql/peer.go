package gocql

import "fmt"

// PeerCluster is a cluster as the trials tell it: nodes with datacenter and rack, and the ring's tokens in order.
type PeerCluster struct {
	Nodes     [][2]string      `json:"nodes"`
	Ring      []PeerToken      `json:"ring"`
	Keyspaces []map[string]int `json:"keyspaces"`
}

// PeerToken is a token with the number of its node.
type PeerToken struct {
	Token int64
	Node  int
}

// PeerReplicas returns the replicas of each token of the ring for each keyspace, or what the driver's walk panicked with.
func PeerReplicas(cluster PeerCluster) (replicas [][][]int, faults []string) {
	ring, numbers := peerRing(cluster)
	for _, factors := range cluster.Keyspaces {
		found, fault := peerWalk(factors, ring, numbers)
		replicas = append(replicas, found)
		faults = append(faults, fault)
	}
	return replicas, faults
}

func peerRing(cluster PeerCluster) (*tokenRing, map[*HostInfo]int) {
	ring := &tokenRing{}
	numbers := make(map[*HostInfo]int)
	for i, node := range cluster.Nodes {
		host := &HostInfo{hostId: fmt.Sprint(i + 1), dataCenter: node[0], rack: node[1]}
		host.connectAddress = []byte{10, 0, byte((i + 1) >> 8), byte(i + 1)}
		ring.hosts = append(ring.hosts, host)
		numbers[host] = i + 1
	}
	for _, it := range cluster.Ring {
		ring.tokens = append(ring.tokens, hostToken{murmur3Token(it.Token), ring.hosts[it.Node-1]})
	}
	return ring, numbers
}

func peerWalk(factors map[string]int, ring *tokenRing, numbers map[*HostInfo]int) (found [][]int, fault string) {
	defer func() {
		if why := recover(); why != nil {
			found, fault = nil, fmt.Sprint(why)
		}
	}()
	var strategy placementStrategy = &networkTopology{dcs: factors}
	if factor, ok := factors[""]; ok {
		strategy = &simpleStrategy{rf: factor}
	}
	of := strategy.replicaMap(ring)
	for _, it := range ring.tokens {
		nodes := []int{}
		if replicas := of.replicasFor(it.token); replicas != nil {
			for _, host := range replicas.hosts {
				nodes = append(nodes, numbers[host])
			}
		}
		found = append(found, nodes)
	}
	return found, ""
}
