# Has Expect 5.45 speak to programs over pipes: its terminal is passed through by `piped`.
set stty_init "raw -echo"
rename spawn spawn_at_terminal
rename wait wait_long
rename socket socket_of_texts

proc spawn {args} {
    if {[lindex $args 0] eq "-noecho"} {set args [lrange $args 1 end]}
    if {[lindex $args 0] ne "-open"} {set args [list $::env(PIPED) {*}$args]}
    uplevel 1 [list spawn_at_terminal -noecho {*}$args]
}

# Without the name of a signal.
proc wait {args} {
    lrange [uplevel 1 [list wait_long {*}$args]] 0 4
}

proc socket {args} {
    set channel [socket_of_texts {*}$args]
    fconfigure $channel -translation binary -buffering none
    return $channel
}
