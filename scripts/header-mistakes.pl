# Writes copies of a C header, each with one mistake, to a folder: `perl scripts/header-mistakes.pl HEADER FOLDER`. The mistakes are made by the
# header's own lines, so that a function that comes later has its own: each constant one up and one down; of a struct each field narrowed,
# dropped, and exchanged with the next; of a prototype each parameter of another width, made const or no longer const, dropped, and exchanged with the
# next one of another type; another name; another struct returned. A line for each: the name of the copy's folder, and the mistake.
use strict;
use warnings;

my ($header, $folder) = @ARGV;
open my $in, '<', $header or die "$header: $!\n";
my @lines = <$in>;
close $in;
my $count = 0;

# Writes a copy in which these lines, from line `at` on, stand for so many others.
sub mistake {
    my ($at, $others, $what, @instead) = @_;
    my $name = sprintf '%03d', ++$count;
    mkdir "$folder/$name" or die "$folder/$name: $!\n";
    open my $out, '>', "$folder/$name/fruscalenta.h" or die "$folder/$name: $!\n";
    print $out @lines[0 .. $at - 1], @instead, @lines[$at + $others .. $#lines];
    close $out or die "$folder/$name: $!\n";
    print "$name\t$what\n";
}

sub break_prototype {
    my ($at, $returns, $name, $list, $end) = @_;
    my @list = split /, /, $list;
    my $try = sub { mistake($at, 1, shift, "$_[0] $_[1](" . join(', ', @_[2 .. $#_]) . $end) };
    my $other = $returns eq 'struct fruscalenta_answer' ? 'struct fruscalenta_judged' : 'struct fruscalenta_answer';
    $try->("$name returns $other", $other, $name, @list);
    $try->("$name has another name", $returns, "${name}_more", @list);
    $try->("$name has one parameter more", $returns, $name, @list, 'size_t more');
    for my $k (0 .. $#list) {
        my @before = @list[0 .. $k - 1];
        my @after = @list[$k + 1 .. $#list];
        $try->("$name without '$list[$k]'", $returns, $name, @before, @after);
        my $narrow = $list[$k];
        $narrow =~ s/size_t|uint64_t/uint32_t/ or $narrow =~ s/uint8_t/uint16_t/;
        $try->("$name with '$narrow'", $returns, $name, @before, $narrow, @after);
        if ($list[$k] =~ /[*\[]/) {
            my $const = $list[$k];
            $const =~ s/^const // or $const = "const $const";
            $try->("$name with '$const'", $returns, $name, @before, $const, @after);
        }
        my ($type, $next) = map { s/\w+(\[\d+\])?$//r } $list[$k], $after[0] // $list[$k];
        $try->("$name with '$list[$k]' behind '$after[0]'", $returns, $name, @before, $after[0], $list[$k], @after[1 .. $#after]) if $type ne $next;
    }
}

for my $at (0 .. $#lines) {
    local $_ = $lines[$at];
    if (/^#define (\w+) (\d+)$/) {
        mistake($at, 1, "$1 is " . ($2 + $_), "#define $1 " . ($2 + $_) . "\n") for 1, -1;
    } elsif (/^    uint64_t (\w+);$/) {
        my $field = $1;
        mistake($at, 1, "a narrow $field, line " . ($at + 1), "    uint32_t $field;\n");
        mistake($at, 1, "no $field, line " . ($at + 1));
        mistake($at, 2, "$field exchanged with the next, line " . ($at + 1), @lines[$at + 1, $at]) if $lines[$at + 1] =~ /^    uint64_t/;
    } elsif (/^(struct \w+) (\w+)\((.*)(\);\n)$/) {
        break_prototype($at, $1, $2, $3, $4);
    }
}
