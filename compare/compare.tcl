# Runs scripts, one a line in hexadecimal digits, each in an interpreter that has the commands of this project alone, and
# prints a line for each: what it printed, and the text of its error or '-'.
#
#     tclsh8.6 compare.tcl FILE ?COMMAND ..?      the commands that come later, of those in Later
#
# Where this project's own rules differ from Tcl's, a command here stands in for Tcl's: it does what Tcl's does, by
# Tcl's own, once it has looked whether this project takes its words. README.md lists these rules.

# The text of a list by the rule of this project. Tcl has to read the same elements from it.
proc canonical {args} {
    set texts {}
    set first 1
    foreach element $args {
        lappend texts [element $element $first]
        set first 0
    }
    set text [join $texts " "]
    if {[llength $text] != [llength $args]} {error "BADLIST: $text"}
    foreach one $text other $args {
        if {$one ne $other} {error "BADLIST: $text"}
    }
    return $text
}

# One element: bare, in braces, or with backslashes.
proc element {text first} {
    set signs [expr {[regexp {[ \t\n\v\f\r;"$\[\]\{\}\\]} $text] || $text eq ""}]
    set comment [expr {$first && [string index $text 0] eq "#"}]
    if {!$signs && !$comment} {return $text}
    if {[string first "\\" $text] < 0 && [pairs $text]} {return "{$text}"}
    set escaped [string map [list \
        " " "\\ " "\t" "\\t" "\n" "\\n" "\v" "\\v" "\f" "\\f" "\r" "\\r" \
        ";" "\\;" "\"" "\\\"" "\$" "\\\$" "\[" "\\\[" "\]" "\\\]" "\{" "\\\{" "\}" "\\\}" "\\" "\\\\"] $text]
    if {$comment} {return "\\$escaped"}
    return $escaped
}

# Whether the braces of a text pair up.
proc pairs {text} {
    set depth 0
    foreach sign [split $text {}] {
        if {$sign eq "\{"} {incr depth}
        if {$sign eq "\}"} {incr depth -1}
        if {$depth < 0} {return 0}
    }
    return [expr {$depth == 0}]
}

# What a command of Tcl does in the frame of the script, with its code.
proc tcl {args} {
    set code [catch {interp invokehidden child {*}$args} value]
    return -code $code $value
}

proc wrong {name} {return -level 2 -code error "wrong # args for \"$name\""}
proc bad {word name} {return -level 2 -code error "bad argument \"$word\" for \"$name\""}

# The names that this project refuses wherever they stand.
proc refuse {name} {
    if {[string match *::* $name]} {return -level 2 -code error "bad variable name"}
    if {[string match (*) $name]} {return -level 2 -code error "bad variable name"}
}

# The number that a text is by this project's rule, or nothing.
proc number {text} {
    set white "\[ \t\n\v\f\r\]*"
    set digits {[0-9]+|0x[0-9a-fA-F]+|0o[0-7]+|0b[01]+}
    if {![regexp "^${white}(\[-+\]?)(${digits})${white}\$" $text -> sign digits]} return
    if {[regexp {^0[0-9]} $digits] && ![regexp {^0[0-7]+$} $digits]} return
    set number [expr "$sign$digits"]
    if {$number < -9223372036854775808 || $number > 9223372036854775807} return
    return $number
}

proc whole {text} {
    set number [number $text]
    if {$number eq ""} {return -level 2 -code error "expected a whole number but got \"$text\""}
    return $number
}

# A place in a list or a text: a number, end or end-N. Tcl takes no great numbers there.
proc place {word name} {
    if {$word eq "end"} {return end}
    set prefix ""
    set text $word
    if {[string match end-* $word]} {
        set prefix end-
        set text [string range $word 4 end]
    }
    set number [number $text]
    if {$number eq ""} {return -level 2 -code error "bad argument \"$word\" for \"$name\""}
    set number [expr {max(-100000, min(100000, $number))}]
    return $prefix$number
}

# A pattern of string match as a regular expression, by this project's rule of sets: a '-' that stands first, or just
# before the end of the set, is ordinary; an open set runs to the pattern's end; the empty one holds nothing.
proc expression {pattern} {
    set expression "^"
    for {set i 0} {$i < [string length $pattern]} {incr i} {
        set sign [string index $pattern $i]
        switch -- $sign {
            * {append expression .*}
            ? {append expression .}
            \\ {
                if {$i + 1 < [string length $pattern]} {incr i}
                append expression [plain [string index $pattern $i]]
            }
            \[ {
                set end [string first "\]" $pattern $i]
                if {$end < 0} {set end [string length $pattern]}
                append expression [members [string range $pattern [expr {$i + 1}] [expr {$end - 1}]]]
                set i $end
            }
            default {append expression [plain $sign]}
        }
    }
    return "$expression\$"
}

proc plain {sign} {
    scan $sign %c code
    return [format {\u%04x} $code]
}

proc members {set} {
    if {$set eq ""} {return {(?!)}}
    set found ""
    for {set i 0} {$i < [string length $set]} {incr i} {
        set from [string index $set $i]
        set to $from
        if {[string index $set [expr {$i + 1}]] eq "-" && $i + 2 < [string length $set]} {
            incr i 2
            set to [string index $set $i]
        }
        if {[string compare $from $to] > 0} {lassign [list $to $from] from to}
        append found "[plain $from]-[plain $to]"
    }
    return "\[$found\]"
}

proc own_puts {args} {
    global out
    set end "\n"
    if {[llength $args] == 3 && [lindex $args 0] ne "-nonewline"} {bad [lindex $args 0] puts}
    if {[llength $args] > 1 && [lindex $args 0] eq "-nonewline"} {
        set end ""
        set args [lrange $args 1 end]
    }
    if {[llength $args] == 2} {
        set channel [lindex $args 0]
        if {$channel ni {stdout stderr}} {bad $channel puts}
        set args [lrange $args 1 end]
        if {$channel eq "stderr"} {return}
    }
    if {[llength $args] != 1} {wrong puts}
    append out [lindex $args 0] $end
    return
}
proc own_list {args} {canonical {*}$args}
proc own_set {args} {
    if {[llength $args] ni {1 2}} {wrong set}
    refuse [lindex $args 0]
    tailcall tcl set {*}$args
}
# Words are trimmed of all white, of a blank behind a backslash too.
proc own_concat {args} {
    set found {}
    foreach word $args {
        set word [string trim $word " \t\n\v\f\r"]
        if {$word ne ""} {lappend found $word}
    }
    join $found " "
}
proc own_eval {args} {
    if {![llength $args]} {wrong eval}
    set code [catch {interp eval child [own_concat {*}$args]} value]
    return -code $code $value
}
proc own_append {args} {
    if {[llength $args] < 2} {wrong append}
    tailcall tcl append {*}$args
}
proc own_incr {args} {
    if {[llength $args] ni {1 2}} {wrong incr}
    lassign $args name by
    refuse $name
    set by [expr {[llength $args] == 2 ? [whole $by] : 1}]
    set held 0
    if {[tcl info exists $name]} {set held [whole [tcl set $name]]}
    set sum [expr {$held + $by}]
    if {$sum < -9223372036854775808 || $sum > 9223372036854775807} {error "whole number out of range"}
    tailcall tcl set $name $sum
}
proc own_lappend {args} {
    if {![llength $args]} {wrong lappend}
    set name [lindex $args 0]
    refuse $name
    set held {}
    if {[tcl info exists $name]} {set held [tcl set $name]}
    llength $held
    tailcall tcl set $name [canonical {*}$held {*}[lrange $args 1 end]]
}
proc own_unset {args} {
    set quiet 0
    if {[lindex $args 0] eq "-nocomplain"} {
        set quiet 1
        set args [lrange $args 1 end]
    }
    if {[lindex $args 0] eq "--"} {
        set args [lrange $args 1 end]
    }
    if {![llength $args]} {wrong unset}
    foreach name $args {refuse $name}
    foreach name $args {
        if {[catch {tcl unset -- $name} text]} {
            if {!$quiet || ![string match "*no such *" $text]} {error $text}
        }
    }
    return
}
proc own_global {args} {
    if {![llength $args]} {wrong global}
    foreach name $args {
        refuse $name
        if {[string match *(*) $name]} {bad $name global}
    }
    if {[tcl info level] == 0} return
    foreach name $args {
        if {$name in [tcl info locals]} {tcl unset $name}
        tcl global $name
    }
    return
}
proc own_info {args} {
    if {![llength $args]} {wrong info}
    if {[lindex $args 0] ne "exists"} {bad [lindex $args 0] info}
    if {[llength $args] != 2} {wrong info}
    refuse [lindex $args 1]
    tailcall tcl info exists [lindex $args 1]
}
proc own_catch {args} {
    global exiting
    if {[llength $args] ni {1 2}} {wrong catch}
    if {[llength $args] == 2} {refuse [lindex $args 1]}
    set code [catch {interp eval child [lindex $args 0]} value]
    if {$exiting} {return -code error exit}
    if {[llength $args] == 2} {tcl set [lindex $args 1] $value}
    return $code
}
proc own_error {args} {
    if {[llength $args] != 1} {wrong error}
    return -code error [lindex $args 0]
}
proc own_return {args} {
    if {[llength $args] > 1} {wrong return}
    return -code return [lindex $args 0]
}
proc own_exit {args} {
    if {[llength $args] > 1} {wrong exit}
    if {[llength $args]} {whole [lindex $args 0]}
    set ::exiting 1
    return -code error exit
}
proc own_proc {args} {
    if {[llength $args] == 3} {
        lassign $args name formals body
        if {[string match *::* $name]} {error "bad variable name"}
        if {[lindex $formals end 0] eq "args"} {set body "__args;$body"}
        set args [list $name $formals $body]
        set ::defined($name) 1
    }
    tailcall tcl proc {*}$args
}
# The list that a last args holds is spelled by this project's rule.
proc own___args {} {
    tcl set args [canonical {*}[tcl set args]]
    return
}
proc own_lindex {args} {
    if {[llength $args] == 1} {
        llength [lindex $args 0]
        return [lindex $args 0]
    }
    if {[llength $args] != 2} {wrong lindex}
    llength [lindex $args 0]
    lindex [lindex $args 0] [place [lindex $args 1] lindex]
}
proc own_lrange {args} {
    if {[llength $args] != 3} {wrong lrange}
    lassign $args list from to
    llength $list
    canonical {*}[lrange $list [place $from lrange] [place $to lrange]]
}
proc own_split {args} {canonical {*}[split {*}$args]}
proc own_string {args} {
    if {![llength $args]} {wrong string}
    set words [lassign $args name]
    set wanted [dict create length 1 index 2 range 3 equal 2 compare 2 first 2 last 2 match 2 tolower 1 toupper 1 \
        trim {1 2} trimleft {1 2} trimright {1 2}]
    if {![dict exists $wanted $name]} {bad $name string}
    if {[llength $words] ni [dict get $wanted $name]} {wrong string}
    lassign $words text second third
    switch $name {
        index {return [string index $text [place $second string]]}
        range {return [string range $text [place $second string] [place $third string]]}
        tolower - toupper {
            set lower [split abcdefghijklmnopqrstuvwxyz {}]
            set upper [split ABCDEFGHIJKLMNOPQRSTUVWXYZ {}]
            set map {}
            foreach one $lower other $upper {
                lappend map {*}[expr {$name eq "tolower" ? [list $other $one] : [list $one $other]}]
            }
            return [string map $map $text]
        }
        match {return [regexp -- [expression $text] $second]}
        trim - trimleft - trimright {
            if {[llength $words] == 1} {set second " \t\n\v\f\r\0"}
            return [string $name $text $second]
        }
    }
    string {*}$args
}
# Those that come later.
# A number that a formula, abs, min or max comes to is written in decimal.
proc decimal {value} {
    if {[string is entier -strict $value]} {return [expr {$value + 0}]}
    return $value
}
proc own_expr {args} {
    if {![llength $args]} {wrong expr}
    set formula [own_concat {*}$args]
    set code [catch {tcl expr $formula} value]
    if {$code == 0} {return [decimal $value]}
    return -code $code $value
}
proc absolute {args} {decimal [tcl::mathfunc::abs {*}$args]}
proc least {args} {decimal [tcl::mathfunc::min {*}$args]}
proc most {args} {decimal [tcl::mathfunc::max {*}$args]}
# Tcl looks at the words of if only as far as it comes.
proc own_if {args} {
    set rest $args
    while 1 {
        set rest [lrange $rest [expr {1 + ([lindex $rest 1] eq "then")}] end]
        if {![llength $rest]} {wrong if}
        set rest [lrange $rest 1 end]
        if {[lindex $rest 0] ne "elseif"} break
        set rest [lrange $rest 1 end]
    }
    if {[llength $rest] > 1 + ([lindex $rest 0] eq "else")} {wrong if}
    if {$rest eq "else"} {wrong if}
    tailcall tcl if {*}$args
}
# All words that begin with a dash before the text are flags, but of two words; a last body "-" has none to share.
proc own_switch {args} {
    set words $args
    set flag ""
    while {[llength $args] > 2 && [string match -* [lindex $words 0]]} {
        set before $flag
        set words [lassign $words flag]
        if {$flag eq "--"} break
        if {$before ne "" || $flag ni {-exact -glob}} {bad $flag switch}
    }
    if {$flag eq "--"} {set flag $before}
    if {[llength $words] < 2} {wrong switch}
    set arms [lassign $words text]
    if {[llength $arms] == 1} {set arms [lindex $arms 0]}
    if {[llength $arms] % 2 || ([llength $arms] && [lindex $arms end] eq "-")} {bad [lindex $arms end] switch}
    set left [llength $arms]
    set taken 0
    foreach {pattern body} $arms {
        incr left -2
        if {!$taken} {set taken [expr {$flag eq "-glob" ? [regexp -- [expression $pattern] $text] : $pattern eq $text}]}
        if {!$taken && !($left == 0 && $pattern eq "default")} continue
        set taken 1
        if {$body eq "-"} continue
        set code [catch {interp eval child $body} value]
        return -code $code $value
    }
    return
}
proc own_array {args} {
    if {![llength $args]} {wrong array}
    set words [lassign $args name]
    set wanted [dict create exists 1 size 1 names {1 2} get {1 2} unset {1 2} set 2]
    if {![dict exists $wanted $name]} {bad $name array}
    if {[llength $words] ni [dict get $wanted $name]} {wrong array}
    lassign $words array pattern
    refuse $array
    if {$name eq "set" && $array eq ""} {error "bad variable name"}
    if {$name ni {names get} && ($name ne "unset" || [llength $words] == 1)} {tailcall tcl array {*}$args}
    set found {}
    foreach index [tcl array names $array] {
        if {[llength $words] == 2 && ![regexp -- [expression $pattern] $index]} continue
        lappend found $index
        if {$name eq "get"} {lappend found [tcl set ${array}($index)]}
        if {$name eq "unset"} {tcl unset ${array}($index)}
    }
    if {$name ne "unset"} {canonical {*}$found}
}
# These stand for themselves, as Tcl has them.
set Plain {break continue foreach join llength}
set Later {expr if while for switch array}
set InPlace {expr if switch array}

proc hex {text} {
    binary scan [encoding convertto iso8859-1 $text] H* digits
    return $digits
}

# What a script comes to: '-' or the text of its error. A code that no command takes is an error of this project.
proc ended {code value} {
    if {$::exiting} {return -}
    switch $code {
        0 - 2 {return -}
        3 {return [hex "break outside of a loop"]}
        4 {return [hex "continue outside of a loop"]}
    }
    return [hex $value]
}

proc show {name} {
    global Plain InPlace Later
    if {$name in $Plain || ($name in $Later && $name ni $InPlace)} {
        interp expose child $name
    } else {
        interp alias child $name {} own_$name
    }
}

# A fresh interpreter, since a script may put a procedure in the place of a command.
proc begin {} {
    global shown
    interp create -safe child
    foreach name [interp eval child {info commands}] {interp hide child $name}
    foreach name $shown {show $name}
    interp alias child ::tcl::mathfunc::abs {} absolute
    interp alias child ::tcl::mathfunc::min {} least
    interp alias child ::tcl::mathfunc::max {} most
    interp alias child __args {} own___args
    interp limit child commands -granularity 100
}

set shown {}
foreach path [info commands own_*] {
    set name [string range $path 4 end]
    if {$name ni $Later && $name ne "__args"} {lappend shown $name}
}
lappend shown {*}$Plain {*}[lrange $argv 1 end]

set file [open [lindex $argv 0] rb]
begin
while {[gets $file line] >= 0} {
    set out ""
    set exiting 0
    array unset defined
    set script [encoding convertfrom iso8859-1 [binary format H* $line]]
    interp limit child commands -value [expr {[interp invokehidden child info cmdcount] + 1000000}]
    set code [catch {interp eval child $script} value]
    interp limit child commands -value {}
    puts "[hex $out] [ended $code $value]"
    foreach name [interp invokehidden child info globals] {
        interp invokehidden child unset -nocomplain $name
    }
    foreach name [array names defined] {
        catch {interp invokehidden child rename $name {}}
        if {$name in $shown} {
            interp delete child
            begin
            break
        }
    }
}
