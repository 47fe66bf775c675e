# Asks polymake for the lines of sheets and times it beside the library: polymake --script polymake.pl TIMES
# TIMES is a file with a line for each sheet: CLASS/NAME.txt with any folders before it, and the library's nanoseconds. CLASS/NAME.plan
# is what the program plan wrote for it. With D the least deviation, a timing x is tightest if it keeps the order and, for each panel i
# with a floor,
#   max over j of a(i,j) + x(j)  >=  max over j of p(i) - D - q(j) + x(j).
# These are inequalities of a tropical cone, and the lines are its extreme rays. Exit status 1: some list is not the same.
use application "tropical";
use File::Basename;
use List::Util "uniq";
use Time::HiRes qw(clock_gettime CLOCK_PROCESS_CPUTIME_ID);
use utf8;

# A time of polymake's is the median of so many.
my $rounds = 11;
# polymake is to take so many times as long as the library.
my $wanted = 100;

# Each sheet's name, with its folders, and the library's microseconds.
sub timed_sheets {
    my ($file) = @_;
    open my $text, "<", $file or die "$file: $!\n";
    return map { /^(.*)\.txt (\d+)$/ ? [$1, $2 / 1000] : die "$file: $_" } <$text>;
}

# The items behind each key, line by line; undefined where absent.
sub items_of {
    my ($file) = @_;
    my %items;
    open my $text, "<", $file or die "$file: $!\n";
    while (my $line = <$text>) {
        chomp $line;
        my ($key, $items) = split /=/, $line;
        push @{$items{$key}}, [map { $_ eq "-" ? undef : $_ } split /,/, $items];
    }
    return \%items;
}

sub sum {
    my ($one, $other) = @_;
    return defined $one && defined $other ? $one + $other : undef;
}

sub largest {
    my ($most) = sort { $b <=> $a } grep { defined } @_;
    return $most;
}

# The largest b with x(i) >= b + x(j) in the after and land lines.
sub order {
    my ($sheet, $i, $j) = @_;
    my $lags = $sheet->{lag};
    my $land = $sheet->{land} ? $sheet->{land}[$i] : [];
    return largest($sheet->{after}[$i][$j], map { sum($land->[$_], $lags->[$_][$j]) } 0 .. $#$lags);
}

# Floor i and due mark j, by the sheet's rule.
sub floor_of {
    my ($sheet, $i) = @_;
    return $sheet->{rule} ? 0 : $sheet->{floor}[0][$i];
}

sub due_of {
    my ($sheet, $j) = @_;
    return $sheet->{rule} ? -largest(map { $_->[$j] } @{$sheet->{lag}}) : $sheet->{due}[0][$j];
}

sub matrix {
    my @rows = map { [map { $_ // "-inf" } @$_] } @_;
    return new Matrix<TropicalNumber<Max>>(\@rows);
}

# The two sides of the inequalities over some triggers, the larger first.
sub inequalities {
    my ($sheet, $deviation, @triggers) = @_;
    my (@larger, @smaller);
    for my $i (@triggers) {
        my @rules = map { $_ == $i ? undef : order($sheet, $i, $_) } @triggers;
        next if !grep { defined } @rules;
        push @larger, [map { $_ == $i ? 0 : undef } @triggers];
        push @smaller, \@rules;
    }
    for my $i (grep { defined floor_of($sheet, $_) } 0 .. $#{$sheet->{lag}}) {
        push @larger, [@{$sheet->{lag}[$i]}[@triggers]];
        push @smaller, [map { floor_of($sheet, $i) - $deviation - due_of($sheet, $_) } @triggers];
    }
    return [matrix(@larger), matrix(@smaller)];
}

# A list of rays as one text: each shifted so that its greatest component is 0, in the order of their texts.
sub list_of {
    my @texts;
    for my $ray (@_) {
        my $most = largest(grep { $_ ne "-inf" } @$ray);
        push @texts, join ",", map { $_ eq "-inf" ? "-" : $_ - $most } @$ray;
    }
    return join "\n", sort @texts;
}

# The seconds of processor time so far: other work on the machine does not count, as it does not for the library.
sub processor_time {
    return clock_gettime(CLOCK_PROCESS_CPUTIME_ID);
}

# The median of some runs of a program, in microseconds; each is handed a new cone.
sub median_time {
    my ($inequalities, $run) = @_;
    my @times = sort { $a <=> $b } map { $run->($inequalities) } 1 .. $rounds;
    return 1e6 * $times[$#times / 2];
}

sub cone {
    my ($inequalities) = @_;
    return new Polytope<Max>(INEQUALITIES => $inequalities);
}

# The time from the inequalities to the rays, and that of the double description alone.
sub whole_way {
    my ($inequalities) = @_;
    my $start = processor_time();
    my $rays = cone($inequalities)->VERTICES;
    return processor_time() - $start;
}

sub description_alone {
    my ($inequalities) = @_;
    my $cone = cone($inequalities);
    my $start = processor_time();
    my $rays = V_trop_input($cone);
    return processor_time() - $start;
}

# How many times as long as the library polymake takes, for a sheet or by the means of a class.
sub ratio {
    my ($times) = @_;
    return $times->{polymake} / $times->{library};
}

# The one with the least ratio.
sub least {
    my ($least) = sort { ratio($a) <=> ratio($b) } @_;
    return $least;
}

# A number without decimals, thousands separated.
sub grouped {
    my ($number) = @_;
    my $digits = sprintf "%.0f", $number;
    1 while $digits =~ s/^(\d+)(\d{3})/$1,$2/;
    return $digits;
}

# Rounded down, so that 100 is a hundred at least.
sub shown_ratio {
    my ($times) = @_;
    return grouped(int ratio($times));
}

# The cells of both times and their ratio.
sub cells {
    my ($times) = @_;
    return (grouped($times->{polymake}) . " µs", sprintf("%.2f µs", $times->{library}), shown_ratio($times));
}

sub print_row {
    print "| ", join(" | ", @_), " |\n";
}

sub print_head {
    print_row(@_);
    print "|", "---|" x @_, "\n";
}

# The times of a sheet and whether the lists are the same; prints its row of the table.
sub asked {
    my ($name, $library) = @_;
    my ($sheet, $plan) = (items_of("$name.txt"), items_of("$name.plan"));
    my @lines = @{$plan->{line}};
    my @triggers = grep { ($lines[0][$_] // "") ne "s" } 0 .. $#{$lines[0]};
    my $inequalities = inequalities($sheet, $plan->{deviation}[0][0], @triggers);
    my @rays = map { [map { "$_" } @$_] } @{cone($inequalities)->VERTICES};
    my @planned = map { [map { $_ // "-inf" } @{$_}[@triggers]] } @lines;
    my $asked = {
        name => basename($name),
        class => basename(dirname($name)),
        same => list_of(@rays) eq list_of(@planned),
        polymake => median_time($inequalities, \&whole_way),
        library => $library,
    };
    my $alone = median_time($inequalities, \&description_alone);
    print_row("`$asked->{name}`", scalar @lines, scalar @rays, $asked->{same} ? "yes" : "no", cells($asked), grouped($alone) . " µs");
    return $asked;
}

# The mean times of a class; prints its row of the table.
sub summed_up {
    my ($class, @sheets) = @_;
    my $means = {name => $class};
    for my $sheet (@sheets) {
        $means->{$_} += $sheet->{$_} / @sheets for "polymake", "library";
    }
    print_row("`$class`", scalar @sheets, cells($means), shown_ratio(least(@sheets)));
    return $means;
}

# Whether polymake takes long enough in all of them.
sub verdict {
    my $least = least(@_);
    return sprintf "%s (least: %s, `%s`)", ratio($least) >= $wanted ? "yes" : "no", shown_ratio($least), $least->{name};
}

print_head("sheet", "lines of `plan`", "of polymake", "the same", "polymake, object and lines", "library", "ratio",
    "double description alone");
my @sheets = map { asked(@$_) } timed_sheets(@ARGV);
print "\n";
print_head("class", "sheets", "polymake, mean", "library, mean", "ratio", "least ratio of a sheet");
my @classes;
for my $class (uniq map { $_->{class} } @sheets) {
    push @classes, summed_up($class, grep { $_->{class} eq $class } @sheets);
}
printf "\npolymake takes at least %d times as long as the library in every class, by the means: %s; on every sheet: %s.\n",
    $wanted, verdict(@classes), verdict(@sheets);
exit(grep({ !$_->{same} } @sheets) ? 1 : 0);
