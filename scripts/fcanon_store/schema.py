"""The tables and views of a store.

`application_id` says that a database is a store, and `user_version` which version its tables have. Positions, records and
solutions are only added, and taken out by `forget`.
"""

import sqlite3

from typing import List

from .boards import CARDS, GAMES

MARK = 0x46434E31
VERSION = 3

TABLES = """
create table game (id integer primary key, name text not null unique);
create table position (
    id integer primary key,
    game integer not null references game,
    key blob not null check (length(key) = 72),
    unique (game, key)
);
create table source (id integer primary key, name text not null unique);
create table record (
    position integer not null references position,
    name text not null,
    passage text not null,
    source integer references source,
    line integer,
    primary key (position, name, passage)
) without rowid;
create index record_name on record (name);
create table solution (
    position integer not null references position,
    length integer not null,
    form text not null check (form in ('>', '>>')),
    moves text not null,
    finder text,
    primary key (position, length, form, moves)
) without rowid;
create table attempt (
    position integer not null references position,
    solver text not null,
    boards integer not null,
    seconds integer not null,
    outcome text not null check (outcome in ('gave up', 'said unsolvable', 'wrong')),
    primary key (position, solver)
) without rowid;
create table closure (
    position integer primary key references position,
    classes integer not null,
    day text not null,
    file text not null
);
create table card (number integer primary key, byte blob not null unique, name text not null unique);
"""

VIEWS = """
-- the columns of each canonical board: where their cards begin in its key, from 1, and how many they are
create view pile as
select position.id as position, column.number as number, size.number as cards, 21 + coalesce((
    select sum(other.number) from card as earlier join card as other on other.byte = substr(key, 12 + earlier.number, 1)
    where earlier.number between 1 and column.number - 1), 0) as start
from position join card as column on column.number between 1 and 8
    join card as size on size.byte = substr(key, 12 + column.number, 1);

-- the text of each canonical board, a line for each line
create view canonical as
select position.id as position, game.name as game, 'Foundations:' || (
    select group_concat(top, '') from (
        select ' ' || substr('HCDS', suit.number, 1) || '-' || substr('0A23456789TJQK', home.number + 1, 1) as top
        from card as suit join card as home on home.byte = substr(key, instr('CDHS', substr('HCDS', suit.number, 1)), 1)
        where suit.number between 1 and 4 order by suit.number)
) || char(10) || 'Freecells:' || (
    select group_concat(' ' || name, '') from (
        select held.name as name from card as cell join card as held on held.byte = substr(key, 4 + cell.number, 1)
        where cell.number between 1 and case game.name when 'eight_off' then 8 else 4 end order by cell.number)
) || char(10) || (
    select group_concat(':' || cards || char(10), '') from (
        select coalesce((select group_concat(' ' || name, '') from (
            select laid.name as name from card as row join card as laid on laid.byte = substr(key, start + row.number - 1, 1)
            where row.number between 1 and pile.cards order by row.number)), '') as cards
        from pile where pile.position = position.id order by pile.number)
) as text
from position join game on game.id = position.game;

-- each record with the shortest solution of its position, as it is played on the record's own board
create view solved as
select name, record.position as position, length, finder, form || coalesce((
    select group_concat(' ' || move, '') from (
        select ifnull(substr(piles, nullif(instr('12345678abcdefgk', substr(value, 1, 1)), 0), 1), 'h') ||
            ifnull(substr(piles, nullif(instr('12345678abcdefgk', substr(value, 2, 1)), 0), 1), 'h') || substr(value, 3) as move
        from json_each('["' || replace(moves, ' ', '","') || '"]') where value != '' order by key)), '') as list
from (select *, substr(passage, 6, 8) || substr(passage, 15) as piles from record) as record
    join solution on solution.position = record.position and (length, form, moves) = (
        select length, form, moves from solution as other where other.position = record.position
        order by length, form, moves limit 1);
"""


def statements(script: str) -> List[str]:
    return [it for it in script.split(";\n") if it.strip()]


def strict(statement: str) -> str:
    """The statement with types that SQLite keeps to, where it knows them."""
    if not statement.strip().startswith("create table") or sqlite3.sqlite_version_info < (3, 37):
        return statement
    return statement + (", strict" if statement.endswith("rowid") else " strict")


def create(table: sqlite3.Connection) -> None:
    """Makes the tables and views in a database without them, within the transaction of the caller."""
    for statement in statements(TABLES + VIEWS):
        table.execute(strict(statement))
    table.executemany("insert into game values (?, ?)", enumerate(GAMES))
    table.executemany("insert into card values (?, ?, ?)", ((number, bytes([number]), name) for number, name in enumerate(CARDS)))
    table.execute(f"pragma application_id = {MARK}")
    table.execute(f"pragma user_version = {VERSION}")
