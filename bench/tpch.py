"""Tables in the schema of TPC-H, made by a fixed seed, with some keys in conflict, and ten of its queries without their aggregates.

The values are drawn as TPC-H draws them where its queries look at them; comments are short. Of each hundred keys the first P have two rows,
of which the second is drawn anew. A query gives the columns by which TPC-H's groups, or those that it adds up.
"""

import datetime
import random

KEYS = {"region": "r_regionkey", "nation": "n_nationkey", "supplier": "s_suppkey", "customer": "c_custkey", "part": "p_partkey",
        "partsupp": ["ps_partkey", "ps_suppkey"], "orders": "o_orderkey", "lineitem": ["l_orderkey", "l_linenumber"]}
#: Where TPC-H allows an index beside those on keys: on what leads to another table, and on dates.
INDEXES = {"nation": ["n_regionkey"], "supplier": ["s_nationkey"], "customer": ["c_nationkey"], "partsupp": ["ps_suppkey"],
           "orders": ["o_custkey", "o_orderdate"], "lineitem": ["l_partkey", "l_suppkey", "l_shipdate", "l_receiptdate"]}
TABLES = {
    "region": "r_regionkey int not null, r_name text, r_comment text",
    "nation": "n_nationkey int not null, n_name text, n_regionkey int, n_comment text",
    "supplier": "s_suppkey int not null, s_name text, s_address text, s_nationkey int, s_phone text, s_acctbal numeric, s_comment text",
    "customer": "c_custkey int not null, c_name text, c_address text, c_nationkey int, c_phone text, c_acctbal numeric, c_mktsegment text, c_comment text",
    "part": "p_partkey int not null, p_name text, p_mfgr text, p_brand text, p_type text, p_size int, p_container text, p_retailprice numeric, p_comment text",
    "partsupp": "ps_partkey int not null, ps_suppkey int not null, ps_availqty int, ps_supplycost numeric, ps_comment text",
    "orders": "o_orderkey int not null, o_custkey int, o_orderstatus text, o_totalprice numeric, o_orderdate text, o_orderpriority text, o_clerk text, "
              "o_shippriority int, o_comment text",
    "lineitem": "l_orderkey int not null, l_partkey int, l_suppkey int, l_linenumber int not null, l_quantity numeric, l_extendedprice numeric, "
                "l_discount numeric, l_tax numeric, l_returnflag text, l_linestatus text, l_shipdate text, l_commitdate text, l_receiptdate text, "
                "l_shipinstruct text, l_shipmode text, l_comment text",
}
QUERIES = {
    "q1": "select l_returnflag, l_linestatus from lineitem where l_shipdate <= '1998-09-02'",
    "q2": "select s_acctbal, s_name, n_name, p_partkey, p_mfgr, s_address, s_phone, s_comment from part, supplier, partsupp, nation, region "
          "where p_partkey = ps_partkey and s_suppkey = ps_suppkey and p_size = 15 and p_type like '%BRASS' and s_nationkey = n_nationkey "
          "and n_regionkey = r_regionkey and r_name = 'EUROPE'",
    "q3": "select l_orderkey, o_orderdate, o_shippriority from customer, orders, lineitem where c_mktsegment = 'BUILDING' and c_custkey = o_custkey "
          "and l_orderkey = o_orderkey and o_orderdate < '1995-03-15' and l_shipdate > '1995-03-15'",
    "q4": "select o_orderpriority from orders where o_orderdate >= '1993-07-01' and o_orderdate < '1993-10-01' "
          "and exists (select * from lineitem where l_orderkey = o_orderkey and l_commitdate < l_receiptdate)",
    "q5": "select n_name from customer, orders, lineitem, supplier, nation, region where c_custkey = o_custkey and l_orderkey = o_orderkey "
          "and l_suppkey = s_suppkey and c_nationkey = s_nationkey and s_nationkey = n_nationkey and n_regionkey = r_regionkey and r_name = 'ASIA' "
          "and o_orderdate >= '1994-01-01' and o_orderdate < '1995-01-01'",
    "q6": "select l_orderkey, l_linenumber, l_extendedprice, l_discount from lineitem where l_shipdate >= '1994-01-01' and l_shipdate < '1995-01-01' "
          "and l_discount between 0.05 and 0.07 and l_quantity < 24",
    "q10": "select c_custkey, c_name, c_acctbal, n_name, c_address, c_phone, c_comment from customer, orders, lineitem, nation where c_custkey = o_custkey "
           "and l_orderkey = o_orderkey and o_orderdate >= '1993-10-01' and o_orderdate < '1994-01-01' and l_returnflag = 'R' and c_nationkey = n_nationkey",
    "q12": "select l_shipmode from orders, lineitem where o_orderkey = l_orderkey and l_shipmode in ('MAIL', 'SHIP') and l_commitdate < l_receiptdate "
           "and l_shipdate < l_commitdate and l_receiptdate >= '1994-01-01' and l_receiptdate < '1995-01-01'",
    "q14": "select p_type, l_extendedprice, l_discount from lineitem, part where l_partkey = p_partkey and l_shipdate >= '1995-09-01' and l_shipdate < '1995-10-01'",
    "q16": "select p_brand, p_type, p_size from partsupp, part where p_partkey = ps_partkey and p_brand <> 'Brand#45' and p_type not like 'MEDIUM POLISHED%' "
           "and p_size in (49, 14, 23, 45, 19, 3, 36, 9)",
}
_TYPES = [["STANDARD", "SMALL", "MEDIUM", "LARGE", "ECONOMY", "PROMO"], ["ANODIZED", "BURNISHED", "PLATED", "POLISHED", "BRUSHED"],
          ["TIN", "NICKEL", "BRASS", "STEEL", "COPPER"]]
_DAYS = [(datetime.date(1992, 1, 1) + datetime.timedelta(at)).isoformat() for at in range(2557)]


def count_of(table, scale):
    """How many keys a table has; of partsupp and lineitem how many of the table that they belong to."""
    return {"region": 5, "nation": 25, "supplier": int(10_000 * scale), "customer": int(150_000 * scale), "part": int(200_000 * scale),
            "partsupp": int(200_000 * scale), "orders": int(1_500_000 * scale), "lineitem": int(1_500_000 * scale)}[table]


def rows_of(table, scale, percent):
    """The rows of a table."""
    chance = random.Random(table)
    draw = globals()["_" + table]
    number = 0
    for at in range(1, count_of(table, scale) + 1):
        for key in range({"partsupp": 4, "lineitem": chance.randrange(1, 8) if table == "lineitem" else 0}.get(table, 1)):
            for _ in range(2 if number % 100 < percent and table not in ("region", "nation") else 1):
                yield draw(chance, at, key, scale)
            number += 1


def _region(chance, at, key, scale):
    return at - 1, ["AFRICA", "AMERICA", "ASIA", "EUROPE", "MIDDLE EAST"][at - 1], "a region"


def _nation(chance, at, key, scale):
    return at - 1, "NATION %d" % (at - 1), (at - 1) % 5, "a nation"


def _supplier(chance, at, key, scale):
    return at, "Supplier#%09d" % at, "address %d" % chance.randrange(10 ** 6), chance.randrange(25), "phone", chance.randrange(-99999, 999999) / 100, "a supplier"


def _customer(chance, at, key, scale):
    return (at, "Customer#%09d" % at, "address %d" % chance.randrange(10 ** 6), chance.randrange(25), "phone", chance.randrange(-99999, 999999) / 100,
            chance.choice(["AUTOMOBILE", "BUILDING", "FURNITURE", "MACHINERY", "HOUSEHOLD"]), "a customer")


def _part(chance, at, key, scale):
    maker = chance.randrange(1, 6)
    return (at, "part %d" % at, "Manufacturer#%d" % maker, "Brand#%d%d" % (maker, chance.randrange(1, 6)), " ".join(chance.choice(words) for words in _TYPES),
            chance.randrange(1, 51), "JUMBO BOX", 900 + at % 1000, "a part")


def _supplier_of(part, key, scale):
    count = count_of("supplier", scale)
    return (part + key * (count // 4 + (part - 1) // count)) % count + 1


def _partsupp(chance, at, key, scale):
    return at, _supplier_of(at, key, scale), chance.randrange(1, 10_000), chance.randrange(100, 100_001) / 100, "a supply"


def _orders(chance, at, key, scale):
    return (at, chance.randrange(1, count_of("customer", scale) + 1), chance.choice("FOP"), chance.randrange(90_000, 50_000_000) / 100, _DAYS[chance.randrange(2406)],
            chance.choice(["1-URGENT", "2-HIGH", "3-MEDIUM", "4-NOT SPECIFIED", "5-LOW"]), "a clerk", 0, "an order")


def _lineitem(chance, at, key, scale):
    part, shipped = chance.randrange(1, count_of("part", scale) + 1), chance.randrange(1, 2500)
    return (at, part, _supplier_of(part, chance.randrange(4), scale), key + 1, chance.randrange(1, 51), chance.randrange(90_000, 10_000_000) / 100, chance.randrange(11) / 100,
            chance.randrange(9) / 100, chance.choice("RAN"), chance.choice("OF"), _DAYS[shipped], _DAYS[max(0, shipped + chance.randrange(-90, 56))],
            _DAYS[min(2556, shipped + chance.randrange(1, 31))], "NONE", chance.choice(["REG AIR", "AIR", "RAIL", "SHIP", "TRUCK", "MAIL", "FOB"]), "a line")
