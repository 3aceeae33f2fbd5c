// Package aarch64 has no code: its folder is that of the library for ARM in a module that fork.sh or file_proxy.sh made.
package aarch64
