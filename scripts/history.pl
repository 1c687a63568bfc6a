#!/usr/bin/perl
# Turns a history in the book's notation into a log: `scripts/history.pl HISTORY`, or with the history on standard input.
#   r1[xA], w1[xA]    transaction 1 reads, or writes, item x at site A
#   c1                transaction 1 commits
# Items x, y, z are 0, 1, 2, and a to w are 3 to 25; sites A to P are 0 to 15. Items and sites may be numbers as well: r1[0,15], r1[x15],
# r1[5A]. The comma may be left out; between two numbers a blank must stand for it. Blanks may stand between any two parts, and an
# underscore counts as a blank, so that w_0[x_A] is read too. Numbers from 0 to 255 go into the log as they are, so that the checker itself
# refuses what is outside its limits.
#
# The log is printed as octal escapes for printf, four to a record, since a variable of the shell holds no zero byte. Where there is no
# history, one line is printed instead that says why, and the status is 3. A wrong word has its record (from 0, as the checker's places)
# and its first character (from 1), or its line and column where several lines were read: a pipe may bring them one by one.
#
# The text is read as far as it matters, and each part of it once: up to one operation more than a log can have, which the checker
# refuses whatever follows, up to the first wrong word, or up to a bound on its characters. So an input without an end has an answer.
use strict;
use warnings;

my $MOST_RECORDS    = 4_096;
my $MOST_CHARACTERS = 1_048_576;
my $CHUNK           = 65_536;
my $SHOWN           = 24; # characters of a wrong word

# The parts of the notation, as text, since the hint on capital letters takes them in any case. A run that was taken is never given
# back (`+` after `*` and `+`): with that, a match costs as much as what it passes.
my $blank     = '[ \t\n\x0b\f\r_]';
my $gap       = "$blank*+";
my $number    = '[0-9]++';
my $item      = "(?:[a-z]|$number)";
my $site      = "(?:[A-P]|$number)";
my $comma     = "$gap(?:,$gap)?+";
my $operation = "(?:(c)$gap($number)|([rw])$gap($number)$gap\\[$gap($item)$comma($site)$gap\\])";

# The beginning of an operation, with the text at its end: more of the text may make it whole.
my $begun = "(?:c$gap(?:$number)?+\\z" .
    "|[rw]$gap(?:\\z|$number$gap(?:\\z|\\[$gap(?:\\z|$item$comma(?:\\z|$site$gap\\z)))))";

my $whole   = @ARGV > 0; # all of the text is there
my $text    = $whole ? $ARGV[0] : '';
my $at      = 0; # the characters of the text that are read
my $records = 0;
my $log     = '';

# Ends with a line that says why there is no history.
sub stop {
    my ($why) = @_;
    print "$why\n";
    exit 3;
}

# A word as the shell quotes it: its letters as they are, or escapes for all that is not ASCII where it has what cannot be seen. A long
# one is cut.
sub quoted {
    my ($word) = @_;
    my $letters = $word;
    if (utf8::decode($letters) && $letters !~ /\p{C}|(?! )\p{Z}/) {
        $letters = substr($letters, 0, $SHOWN) . '..' if length $letters > $SHOWN;
        utf8::encode($letters);
        $letters =~ s/'/'\\''/g;
        return "'$letters'";
    }
    $word = substr($word, 0, $SHOWN) . '..' if length $word > $SHOWN;
    $word =~ s/([\\'])/\\$1/g;
    $word =~ s/([^ -~])/sprintf '\\%03o', ord $1/ge;
    return "\$'$word'";
}

# Ends with a line that says where a word stands, and what is wrong with it.
sub wrong {
    my ($word, $what) = @_;
    my $before = substr $text, 0, $at;
    my $place  = 'character ' . ($at + 1);
    my (undef, $below) = split /\n/, $text, 2;
    if (defined $below && $below =~ /[^ \t\n\x0b\f\r_]/) {
        $place = 'line ' . (1 + $before =~ tr/\n//) . ', column ' . ($at - rindex $before, "\n");
    }
    stop("the history is wrong at record $records, $place: " . quoted($word) . " $what");
}

# The byte of a number, an item or a site; nothing for a number that fits into none.
sub byte_of {
    my ($part) = @_;
    return (ord($part) - ord 'x') % 26 if $part =~ /[a-z]/;
    return ord($part) - ord 'A' if $part =~ /[A-P]/;
    $part =~ s/^0+(?=.)//;
    return length $part > 3 || $part > 255 ? undef : $part;
}

# Adds the records of the operations that stand next and are whole. A number at the end of what is there may go on.
sub take_operations {
    pos($text) = $at;
    while ($records <= $MOST_RECORDS && $text =~ /\G$gap$operation/gc) {
        last if !$whole && pos $text == length $text && substr($text, -1) ne ']';
        my @parts = defined $1 ? ($2, 0, 0) : ($4, $5, $6);
        my $kind  = defined $1 ? 3 : $3 eq 'w' ? 2 : 1;
        my @bytes = map { byte_of($_) } @parts;
        if (grep { !defined } @bytes) {
            my $end = pos $text;
            skip_blanks();
            wrong(substr($text, $at, $end - $at), 'has a number above 255, which fits into no byte');
        }
        $at = pos $text;
        $log .= sprintf '\\%03o\\%03o\\%03o\\%03o', $kind, @bytes;
        $records++;
    }
}

sub skip_blanks {
    pos($text) = $at;
    $text =~ /\G$gap/gc;
    $at = pos $text;
}

# The word that stands next is there up to its end.
sub word_ends {
    pos($text) = $at;
    return $text =~ /\G[^\s\]]*+[\s\]]/;
}

# What can be said of the word that stands next, which is no operation.
sub refuse_word {
    pos($text) = $at;
    my ($word) = $text =~ /\G([^\s\]]*+\]?)/;
    my $is_not = 'is not an operation';
    if ($text =~ /\G[rw]$gap$number$gap\[$gap$number$gap\]/) {
        wrong($word, "$is_not: a comma or a blank must part two numbers");
    }
    my ($c, $alone, $rw, $transaction, $item, $site) = $text =~ /\G$operation/i;
    my @parts = defined $c ? $alone : defined $rw ? ($transaction, lc $item, uc $site) : ();
    if (@parts > 0 && !grep { !defined byte_of($_) } @parts) {
        my $meant = defined $c ? "c$alone" : lc($rw) . "$parts[0]\[$parts[1],$parts[2]]";
        $meant =~ s/,// if $meant =~ /[a-z],|,[A-P]/;
        wrong($word, "$is_not, but " . quoted($meant) . ' is (kinds and items are small letters, sites capital ones)');
    }
    wrong($word, "$is_not; a log is judged without --text") if $text =~ /\A[\x01-\x03]/ && $at == 0;
    wrong($word, $is_not);
}

# Appends what comes next on standard input.
sub read_more {
    if (length $text > $MOST_CHARACTERS) {
        stop("the history is too long: more than $MOST_CHARACTERS characters, with $records operations in them");
    }
    my $room = $MOST_CHARACTERS + 1 - length $text;
    my $got = sysread STDIN, $text, $room < $CHUNK ? $room : $CHUNK, length $text;
    stop("standard input cannot be read: $!") if !defined $got;
    $whole = $got == 0;
}

stop('a history is one argument, in quotes') if @ARGV > 1;
while (1) {
    take_operations();
    last if $records > $MOST_RECORDS;
    skip_blanks();
    pos($text) = $at;
    if ($at < length $text && ($whole || $text !~ /\G$begun/)) {
        read_more() until $whole || length $text > $MOST_CHARACTERS || word_ends();
        refuse_word();
    }
    last if $whole;
    read_more();
}
print $log;
