#!/bin/sh
# Prints a script of 500 puts of 65,536 bytes, each with an id and bytes of its own, and a sync.
echo 'clients 1'
for id in $(seq 500); do echo "a put $id 65536 $id"; done
echo 'a sync'
