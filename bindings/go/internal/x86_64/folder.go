// Package x86_64 has no code: its folder is that of the library for x86-64 in a module that fork.sh or file_proxy.sh made.
package x86_64
