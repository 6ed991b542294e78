"""Several machines: the balancer before them, versions that go from one to the other, and the objects of Kubernetes."""
