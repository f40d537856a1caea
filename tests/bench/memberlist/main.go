// A member of a group by hashicorp/memberlist with its defaults for local networks: a probe a second, 500 milliseconds
// for its ack, three relays. Words: its name, its port at 127.0.0.1, and the port of a member whose group it joins, if
// it is to join one. It ends when it is killed.
package main

import (
	"fmt"
	"io"
	"log"
	"os"
	"strconv"

	"github.com/hashicorp/memberlist"
)

const host = "127.0.0.1"

func begin(name string, port int, others []string) error {
	config := memberlist.DefaultLANConfig()
	config.Name = name
	config.BindAddr, config.BindPort = host, port
	config.AdvertiseAddr, config.AdvertisePort = host, port
	config.Logger = log.New(io.Discard, "", 0)
	list, err := memberlist.Create(config)
	if err != nil {
		return err
	}
	for _, other := range others {
		if _, err := list.Join([]string{host + ":" + other}); err != nil {
			return err
		}
	}
	return nil
}

func main() {
	if len(os.Args) < 3 {
		fmt.Fprintln(os.Stderr, "Usage: member NAME PORT [PORT]")
		os.Exit(2)
	}
	port, err := strconv.Atoi(os.Args[2])
	if err == nil {
		err = begin(os.Args[1], port, os.Args[3:])
	}
	if err != nil {
		fmt.Fprintln(os.Stderr, err)
		os.Exit(1)
	}
	select {}
}
