#!/usr/bin/perl
# Turns hexadecimal text on standard input into bytes on standard output: two digits a byte, white space anywhere, and # comments, which go to the end of
# their line and may hold any bytes. A UTF-8 byte order mark at the start is passed over.
#
#   perl unhex.pl          the bytes are written as they come, up to the first fault
#   perl unhex.pl MOST     nothing is written before all is read and good: at most MOST bytes, and what comes after them is not looked at
#
# Before the first byte it writes a line `go`, so that who waits for it starts nothing on a text with a fault. Memory does not grow with the input. A
# fault is told on standard error, and ends it with 2: `hexadecimal: SENTENCE`; a failed read with 3, in the words that the programs have for it.
use strict;
use warnings;

my ($most) = @ARGV;
my $line = 1;
my $comment = 0;

sub stop {
    my ($status, $sentence) = @_;
    print STDERR "$sentence\n";
    exit $status;
}

# What is there to be read now, or nothing at the end. Standard input is the caller's, and may be one that is not waited for by itself.
sub more {
    my $text;
    until (defined sysread STDIN, $text, 65536) {
        if ($!{EAGAIN}) { vec(my $waited = '', fileno STDIN, 1) = 1; select $waited, undef, undef, undef }
        elsif (!$!{EINTR}) { stop(3, "standard input cannot be read: $!") }
    }
    return $text;
}

# The mark may come in pieces.
sub first {
    my $text = '';
    my $mark = "\xef\xbb\xbf";
    while (length $text < length $mark && index($mark, $text) == 0) {
        my $piece = more();
        last unless length $piece;
        $text .= $piece;
    }
    return substr($text, 0, 3) eq $mark ? substr($text, 3) . (length $text == 3 ? more() : '') : $text;
}

sub named {
    my ($byte) = @_;
    return $byte eq "\0" ? 'a NUL byte' : $byte =~ /[!-~]/ ? "the character $byte" : sprintf 'the byte 0x%02x', ord $byte;
}

# The digits of a piece of text, ROOM of them or a few more, and the fault that stands behind them, if there is one.
sub digits_of {
    my ($text, $room) = @_;
    my $digits = '';
    pos($text) = 0;
    while (pos $text < length $text && length $digits < $room) {
        if ($comment) { $text =~ /\G[^\n]*/g; $comment = pos $text == length $text; next }
        if ($text =~ /\G#/gc) { $comment = 1; next }
        $text =~ /\G([0-9A-Fa-f \t\r\n\f\x0b]+)/gc
            or return $digits, "line $line has " . named(substr $text, pos $text, 1) . ', which is no hexadecimal digit, no white space and in no # comment';
        $digits .= $1 =~ tr/0-9A-Fa-f//cdr;
        $line += $1 =~ tr/\n//;
    }
    return $digits, undef;
}

# A pipe of the script's own: it waits by itself. If its reader is gone, that reader says why.
sub put {
    my ($bytes) = @_;
    while (length $bytes) {
        my $count = syswrite STDOUT, $bytes;
        exit 0 unless defined $count || $!{EINTR};
        substr($bytes, 0, $count // 0) = '';
    }
}

binmode STDIN;
binmode STDOUT;
my $whole = defined $most;
my $room = $whole ? 2 * $most : 'inf';
my $count = 0;
my $waiting = '';
put("go\n") unless $whole;
for (my $text = first(); length $text && $count < $room; $text = more()) {
    my ($digits, $fault) = digits_of($text, $room - $count);
    $count += length $digits;
    $waiting .= $digits;
    unless ($whole) { put(pack 'H*', substr $waiting, 0, 2 * int(length($waiting) / 2), '') }
    stop(2, "hexadecimal: $fault") if defined $fault;
}
if ($whole && $count > $room) { $waiting = substr $waiting, 0, $room; $count = $room }
stop(2, "hexadecimal: an odd number of hexadecimal digits ($count), so the last byte is half there") if $count % 2;
put("go\n" . pack 'H*', $waiting) if $whole;
