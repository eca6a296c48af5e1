# A table of words, counted, sorted and thrown away again.
my $state = 1;
for my $turn (1 .. 6) {
    my (%count, @lines);
    for my $at (1 .. 6000) {
        $state = ($state * 1103515245 + 12345) % 2147483648;
        my $word = "word" . ($state % 3000) . "x" x ($state % 50);
        $count{$word}++;
        push @lines, { word => $word, at => $at, parts => [split /o/, $word] };
    }
    my @sorted = sort { $a->{word} cmp $b->{word} } @lines;
    print scalar(keys %count), " ", $sorted[0]{word}, "\n";
}
