#!/usr/bin/perl
# Reads the lines that a program prints and says each in a sentence for people, with its number and place, as soon as it is there.
#
#   perl explain.pl PROGRAM <LINES
#
# For the program stream each block of lines gets a heading, and its last line is told to be the judge's. A failed write ends it with 3 and the
# words on standard error that the programs have for it.
use strict;
use warnings;

my ($program) = @ARGV;

my @refusals = (
    '',
    'the input has over 65,535 bytes.',
    'the input is empty, or its first field is no good head.',
    'the field at byte PLACE is cut short.',
    'the field at byte PLACE has an unknown tag, or is a second head.',
    'the field at byte PLACE has the wrong length for its tag.',
    'the field at byte PLACE is one too many: at most 512 nodes, 64 equations and 64 freshness fields.',
    'the field at byte PLACE names an atom, a variable or a node that is not there.',
    'the step limit was reached while EQUATION was waiting; nothing is said about the problem.',
    'clash in EQUATION: two different forms, atoms or symbols stand against each other. There is no solution.',
    'in EQUATION a variable would have to stand inside its own value. There is no solution.',
    'EQUATION would bind a protected variable. There is no solution that leaves it alone.',
    'an atom would have to be fresh for itself. There is no solution.',
    'the answer wants PLACE bytes of output.',
    'it does not hold: some line does not follow from the assumptions.',
);

sub refused {
    my ($number, $place) = @_;
    my $reason = $refusals[$number] // 'for a reason that this script does not know.';
    $reason =~ s/EQUATION/equation PLACE (counted from 0)/;
    $reason =~ s/PLACE/$place/;
    return "Refused ($number, place $place): $reason";
}

sub bound {
    my ($variable, $node, @images) = @_;
    my @moved = map { "$_ becomes $images[$_]" } grep { $images[$_] != $_ } 0 .. $#images;
    return "  Variable $variable is node $node" . (@moved ? ', its atoms renamed: ' . join(', ', @moved) : '') . '.';
}

sub accepted {
    my ($steps) = @_;
    return "Accepted after $steps step" . ($steps == 1 ? '' : 's') . ': the two sides of every equation have a common meaning.';
}

sub sentence {
    my ($line) = @_;
    my ($word, @numbers) = split ' ', $line;
    return accepted(@numbers) if $word eq 'accepted';
    return bound(@numbers) if $word eq 'bind';
    return "  Condition: atom $numbers[0] is fresh for variable $numbers[1]." if $word eq 'fresh';
    return 'Holds: every line follows from the assumptions.' if $word eq 'holds';
    return refused(@numbers) if $word eq 'refused';
    return 'The stream ends inside the length or the bytes of another problem.' if $word eq 'stream';
    return $line;
}

# Writes all of it. A descriptor that can take nothing now is waited for; after a write that failed nothing more is written.
sub put {
    my ($text) = @_;
    while (length $text) {
        my $count = syswrite STDOUT, $text;
        if (defined $count) { substr($text, 0, $count) = '' }
        elsif ($!{EAGAIN}) { vec(my $waited = '', fileno STDOUT, 1) = 1; select undef, $waited, undef, undef }
        elsif (!$!{EINTR}) { print STDERR "standard output cannot be written: $!\n"; exit 3 }
    }
}

# A block's line is held until the next one is there: whether it is the judge's is known by the empty line behind it.
my $problems = 0;
my $held;
sub of_stream {
    my ($line) = @_;
    my $before = $held;
    $held = length $line ? $line : undef;
    return 'Judge: ' . sentence($before) . "\n\n" unless defined $held;
    return sentence($before) . "\n" if defined $before;
    if ($line =~ /^stream /) { undef $held; return sentence($line) . "\n" }
    return 'Problem ' . ++$problems . " of the stream.\n";
}

# Without layers: the lines are bytes, whatever the caller's environment asks of perl.
binmode STDIN;
binmode STDOUT;
while (my $line = <STDIN>) {
    # A line without its end is all that came of a program that did not come to its own: no sentence is made of it.
    chomp $line or last;
    put($program eq 'stream' ? of_stream($line) : sentence($line) . "\n");
}
