"""A suite that tests a discovery and synchronization service against its interface, from outside, over HTTP."""
