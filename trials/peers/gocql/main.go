// Answers clusters by gocql's own walks: a JSON line each, on standard input.
package main

import (
	"bufio"
	"encoding/json"
	"os"
	"strconv"

	"github.com/gocql/gocql"
)

type cluster struct {
	Nodes     [][2]string      `json:"nodes"`
	Ring      [][2]interface{} `json:"ring"`
	Keyspaces []map[string]int `json:"keyspaces"`
}

func main() {
	lines := bufio.NewReaderSize(os.Stdin, 1<<20)
	out := json.NewEncoder(os.Stdout)
	for {
		line, err := lines.ReadBytes('\n')
		if err != nil {
			return
		}
		var it cluster
		if err := json.Unmarshal(line, &it); err != nil {
			panic(err)
		}
		peer := gocql.PeerCluster{Nodes: it.Nodes, Keyspaces: it.Keyspaces}
		for _, pair := range it.Ring {
			token, err := strconv.ParseInt(pair[0].(string), 10, 64)
			if err != nil {
				panic(err)
			}
			peer.Ring = append(peer.Ring, gocql.PeerToken{Token: token, Node: int(pair[1].(float64))})
		}
		replicas, faults := gocql.PeerReplicas(peer)
		out.Encode(map[string]interface{}{"replicas": replicas, "faults": faults})
	}
}
