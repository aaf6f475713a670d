#!/usr/bin/perl
# Does to the database of a file, through Perl's DB_File, what each line of standard input says, and answers each with a line.
#
# usage: by_db_file.pl FILE btree|hash [duplicates]
#
# The lines and answers are those of by_bsddb3.py, of `use -`, get, has, from, put, over, del, drop, all and back.
use strict;
use warnings;
use DB_File;
use Fcntl;

my ($path, $kind, $duplicates) = @ARGV;
my $info = $kind eq 'btree' ? DB_File::BTREEINFO->new : DB_File::HASHINFO->new;
$info->{flags} = R_DUP if $kind eq 'btree' && $duplicates;
my %pairs;
my $base = tie(%pairs, 'DB_File', $path, O_RDWR, 0644, $info) or die "! $path: $!\n";

sub word { my ($bytes) = @_; return $bytes eq '' ? '.' : unpack('H*', $bytes) }
sub bytes_of { my ($word) = @_; return $word eq '.' ? '' : pack('H*', $word) }

# The data of a key, by the tied hash where each key has one, else by a cursor.
sub get {
    my ($key) = @_;
    if (!$duplicates) {
        my ($found, $status) = ('', $base->get($key, my $datum));
        die "get and exists differ\n" if ($status == 0) != (exists $pairs{$key} ? 1 : 0);
        die "get and the hash differ\n" if $status == 0 && $pairs{$key} ne $datum;
        return $status == 0 ? ($datum) : ();
    }
    my ($at, $datum, @found) = ($key);
    for (my $status = $base->seq($at, $datum, R_CURSOR); $status == 0 && $at eq $key; $status = $base->seq($at, $datum, R_NEXT)) {
        push @found, $datum;
    }
    return @found;
}

# Whether a cursor stands on the pair now.
sub find {
    my ($key, $datum) = @_;
    my ($at, $found) = ($key);
    for (my $status = $base->seq($at, $found, R_CURSOR); $status == 0 && $at eq $key; $status = $base->seq($at, $found, R_NEXT)) {
        return 1 if $found eq $datum;
    }
    return 0;
}

sub all {
    my ($first, $following) = @_;
    my ($key, $datum, @found) = ('', '');
    for (my $status = $base->seq($key, $datum, $first); $status == 0; $status = $base->seq($key, $datum, $following)) {
        push @found, $key, $datum;
    }
    return @found;
}

sub answer {
    my ($verb, @words) = @_;
    my ($key, $datum, $other) = map { bytes_of($_) } @words;
    return (1) if $verb eq 'use';
    return get($key) if $verb eq 'get';
    return find($key, $datum) ? ($datum) : () if $verb eq 'has';
    return all(R_FIRST, R_NEXT) if $verb eq 'all';
    return all(R_LAST, R_PREV) if $verb eq 'back';
    if ($verb eq 'from') {
        my ($at, $found) = ($key, '');
        return $base->seq($at, $found, R_CURSOR) == 0 ? ($at, $found) : ();
    }
    my $status = $verb eq 'put' ? $base->put($key, $datum)
        : $verb eq 'del' ? $base->del($key)
        : !find($key, $datum) ? 1
        : $verb eq 'over' ? $base->put($key, $other, R_CURSOR) : $base->del($key, R_CURSOR);
    die "$verb: $!\n" if $status < 0;
    return $status == 0 ? (1) : ();
}

while (my $line = <STDIN>) {
    my @words = split ' ', $line;
    my @found = eval { answer(@words) };
    if ($@) { print '! ', join(' ', split ' ', $@), "\n"; next }
    my $done = $words[0] =~ /^(use|put|over|del|drop)$/;
    print @found ? join(' ', map { $done ? $_ : word($_) } @found) : '-', "\n";
}
undef $base;
untie %pairs;
