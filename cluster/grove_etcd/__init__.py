"""Plans of the tree protocol, run by any number of workers on an etcd cluster (docs/CLUSTER.md)."""
