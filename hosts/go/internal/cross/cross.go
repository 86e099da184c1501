// Package cross is what a call of C costs.
package cross

/*
static void nothing(void) {}
*/
import "C"

// Nothing calls C, which does nothing.
func Nothing() { C.nothing() }
