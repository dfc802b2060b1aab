"""The eight tables of the benchmark, with their primary keys and the columns that refer to other
tables."""

# Each table: its columns with their kinds, and its primary key. A decimal has 15 digits, two of
# them after the point.
COLUMNS = {
    "region": "r_regionkey int, r_name text, r_comment text",
    "nation": "n_nationkey int, n_name text, n_regionkey int, n_comment text",
    "part": "p_partkey int, p_name text, p_mfgr text, p_brand text, p_type text, p_size int, p_container text,"
    " p_retailprice decimal, p_comment text",
    "supplier": "s_suppkey int, s_name text, s_address text, s_nationkey int, s_phone text, s_acctbal decimal, s_comment text",
    "partsupp": "ps_partkey int, ps_suppkey int, ps_availqty int, ps_supplycost decimal, ps_comment text",
    "customer": "c_custkey int, c_name text, c_address text, c_nationkey int, c_phone text, c_acctbal decimal,"
    " c_mktsegment text, c_comment text",
    "orders": "o_orderkey int, o_custkey int, o_orderstatus text, o_totalprice decimal, o_orderdate date, o_orderpriority text,"
    " o_clerk text, o_shippriority int, o_comment text",
    "lineitem": "l_orderkey int, l_partkey int, l_suppkey int, l_linenumber int, l_quantity decimal, l_extendedprice decimal,"
    " l_discount decimal, l_tax decimal, l_returnflag text, l_linestatus text, l_shipdate date, l_commitdate date,"
    " l_receiptdate date, l_shipinstruct text, l_shipmode text, l_comment text",
}
KEYS = {
    "region": ["r_regionkey"],
    "nation": ["n_nationkey"],
    "part": ["p_partkey"],
    "supplier": ["s_suppkey"],
    "partsupp": ["ps_partkey", "ps_suppkey"],
    "customer": ["c_custkey"],
    "orders": ["o_orderkey"],
    "lineitem": ["l_orderkey", "l_linenumber"],
}
REFERENCES = {
    "nation": ["n_regionkey"],
    "supplier": ["s_nationkey"],
    "partsupp": ["ps_suppkey"],
    "customer": ["c_nationkey"],
    "orders": ["o_custkey"],
    "lineitem": ["l_partkey", "l_suppkey"],
}
TABLES = list(COLUMNS)


def columns(table):
    """The columns of a table, each with its kind."""
    return [tuple(it.split()) for it in COLUMNS[table].split(", ")]


def definition(table, kinds):
    """The text of a table's columns, with the type of each of the kinds int, text, decimal and
    date as a dialect writes it."""
    return ", ".join(f"{name} {kinds[kind]}" for name, kind in columns(table))


def fault_of(folder):
    """Says in a sentence why a folder's tables can't be read, or nothing."""
    for table in TABLES:
        try:
            with open(f"{folder}/{table}.tbl", "rb"):
                pass
        except OSError as fault:
            file = f"{folder}/{table}.tbl"
            return f"{file} can't be read: {fault.strerror}. `bench/dbgen SF DIR` makes the eight tables."
    return None


def scale_of(folder):
    """The scale factor of the tables in a folder, by the number of its suppliers."""
    with open(f"{folder}/supplier.tbl", "rb") as file:
        return sum(1 for _ in file) / 10000
