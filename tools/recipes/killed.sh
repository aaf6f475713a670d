#!/bin/sh
# Makes the environment `env` of a program (Perl with BerkeleyDB) that is killed after it stored 30,000 pairs in a
# transaction and before it wrote their pages.
mkdir env
perl -MBerkeleyDB -e '
    my $env = BerkeleyDB::Env->new(-Home => "env", -Cachesize => 64 << 20,
        -Flags => DB_CREATE | DB_INIT_TXN | DB_INIT_LOG | DB_INIT_MPOOL | DB_INIT_LOCK) or die $BerkeleyDB::Error;
    my $users = BerkeleyDB::Btree->new(-Filename => "users.db", -Env => $env, -Flags => DB_CREATE | DB_AUTO_COMMIT) or die $BerkeleyDB::Error;
    my $change = $env->txn_begin;
    $users->Txn($change);
    $users->db_put("user$_", "/home/user$_") for 1 .. 30000;
    $change->txn_commit;
    kill 9, $$;
'
rm -f env/__db.*
true
