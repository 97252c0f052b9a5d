# Opens a safe with Password Gorilla's own library, without its window.
#
#   tclsh gorilla.tcl FILE PASSPHRASE
#
# The first line says what became of it; then title, user, group, password and expiry, a line a
# login, in the file's order.

set home /usr/share/password-gorilla
fconfigure stdout -encoding utf-8
package require msgcat
namespace import ::msgcat::mc
set auto_path [linsert $auto_path 0 $home]
# Its own parts in Tcl, none of the optional ones in C.
namespace eval gorilla {
    array set extension {twofish 0 sha256c 0 stretchkey 0}
    variable Dir $::home
}
source [file join $home isaac.tcl]
isaac::srand 1
package require pwsafe

proc value {db record field} {
    if {[$db existsField $record $field]} {
        return [$db getFieldValue $record $field]
    }
    return ""
}

lassign $argv file passphrase
if {[catch {pwsafe::createFromFile $file $passphrase} db options]} {
    set code [dict get $options -errorcode]
    puts "refuses: [expr {[lindex $code 0] eq "GORILLA" ? [lindex $code 2] : $db}]"
    exit
}
set records [lsort -integer [$db getAllRecordNumbers]]
set warned [expr {[llength [$db cget -warningsDuringOpen]] > 0 ? ", warns" : ""}]
puts "opens [llength $records]$warned"
foreach record $records {
    puts [join [lmap field {3 4 2 6 10} {value $db $record $field}] \t]
}
