"""ClickHouse: a server of its own in a temporary folder, with tables of engine Memory and one
thread a query.

Debian's version, 18.16, has no subqueries that depend on the row around them and no join of more
than two tables, so it is asked only the queries below, written as it wants them. It computes
with decimals."""
import os
import shutil
import signal
import socket
import subprocess
import tempfile
import time
import urllib.error
import urllib.parse
import urllib.request

from . import child, schema
from .answers import Answer

KINDS = {"int": "Int32", "text": "String", "decimal": "Decimal(15, 2)", "date": "Date"}
TABLES = ["part", "orders", "lineitem"]
# (the values stand as in examples/queries, so that others can take their place)
QUERIES = {
    1: """select l_returnflag, l_linestatus, sum(l_quantity), sum(l_extendedprice), sum(l_extendedprice * (1 - l_discount)),
 sum(l_extendedprice * (1 - l_discount) * (1 + l_tax)), toFloat64(sum(l_quantity)) / count(),
 toFloat64(sum(l_extendedprice)) / count(), toFloat64(sum(l_discount)) / count(), count()
 from lineitem where l_shipdate <= toDate('1998-12-01') - toUInt16('90')
 group by l_returnflag, l_linestatus order by l_returnflag, l_linestatus""",
    6: """select sum(l_extendedprice * l_discount) from lineitem where l_shipdate >= toDate('1994-01-01')
 and l_shipdate < addYears(toDate('1994-01-01'), 1) and l_discount between toDecimal64('0.06', 2) - toDecimal64('0.01', 2)
 and toDecimal64('0.06', 2) + toDecimal64('0.01', 2) and l_quantity < 24""",
    12: """select l_shipmode, sum(o_orderpriority = '1-URGENT' or o_orderpriority = '2-HIGH'),
 sum(o_orderpriority <> '1-URGENT' and o_orderpriority <> '2-HIGH') from (select o_orderkey, o_orderpriority from orders)
 all inner join (select l_orderkey as o_orderkey, l_shipmode from lineitem where l_shipmode in ('MAIL', 'SHIP')
 and l_commitdate < l_receiptdate and l_shipdate < l_commitdate and l_receiptdate >= toDate('1994-01-01')
 and l_receiptdate < addYears(toDate('1994-01-01'), 1)) using o_orderkey group by l_shipmode order by l_shipmode""",
    14: """select 100.00 * sum(case when p_type like 'PROMO%' then toFloat64(l_extendedprice * (1 - l_discount)) else 0 end)
 / sum(toFloat64(l_extendedprice * (1 - l_discount))) from (select l_partkey as p_partkey, l_extendedprice, l_discount from lineitem
 where l_shipdate >= toDate('1995-09-01') and l_shipdate < addMonths(toDate('1995-09-01'), 1))
 any inner join (select p_partkey, p_type from part) using p_partkey""",
}
SERVER = """<yandex><logger><level>error</level><log>{room}/log</log><errorlog>{room}/errors</errorlog></logger>
<listen_host>127.0.0.1</listen_host><http_port>{port}</http_port><path>{room}/data/</path><tmp_path>{room}/tmp/</tmp_path>
<mark_cache_size>5368709120</mark_cache_size><users_config>{room}/users.xml</users_config><default_profile>default</default_profile>
<default_database>default</default_database></yandex>
"""
USERS = """<yandex><profiles><default><max_threads>1</max_threads>
<format_csv_delimiter>|</format_csv_delimiter><max_memory_usage>0</max_memory_usage></default></profiles>
<users><default><password></password><networks><ip>::/0</ip></networks><profile>default</profile><quota>default</quota></default></users>
<quotas><default></default></quotas></yandex>
"""


def is_there():
    return shutil.which("clickhouse-server") is not None


class ClickHouse:
    name = "ClickHouse"
    is_binary = True

    def __init__(self, folder):
        self.room, self.server = tempfile.mkdtemp(), None
        try:
            self.start()
            begin = child.processor_seconds(self.server.pid)
            for table in TABLES:
                self.send(f"create table {table}({schema.definition(table, KINDS)}) engine = Memory")
                with open(f"{folder}/{table}.tbl", "rb") as rows:
                    self.send(f"insert into {table} format CSV", rows)
            self.load = child.processor_seconds(self.server.pid) - begin
        except BaseException:
            self.close()
            raise

    def start(self):
        with socket.socket() as free:
            free.bind(("127.0.0.1", 0))
            port = free.getsockname()[1]
        self.address = f"http://127.0.0.1:{port}/"
        for name, text in (("config.xml", SERVER), ("users.xml", USERS)):
            with open(f"{self.room}/{name}", "w", encoding="ascii") as file:
                file.write(text.format(room=self.room, port=port))
        os.mkdir(f"{self.room}/data")
        os.mkdir(f"{self.room}/tmp")
        with open(f"{self.room}/said", "wb") as said:
            self.server = subprocess.Popen(
                ["clickhouse-server", f"--config-file={self.room}/config.xml"],
                stdout=said, stderr=said, cwd=self.room, preexec_fn=child.end_with_parent,
            )
        while True:
            try:
                self.send("select 1")
                return
            except urllib.error.URLError:
                if self.server.poll() is not None:
                    with open(f"{self.room}/said", encoding="utf-8", errors="replace") as said:
                        raise RuntimeError(f"ClickHouse doesn't start: {said.read()[-300:]}") from None
                time.sleep(0.1)

    def send(self, text, rows=None):
        """The server's text for a query; rows are those of an insert."""
        if rows is None:
            request = urllib.request.Request(self.address, data=text.encode())
        else:
            size = os.fstat(rows.fileno()).st_size
            address = f"{self.address}?query={urllib.parse.quote(text)}"
            request = urllib.request.Request(address, data=rows, headers={"Content-Length": size})
        try:
            with urllib.request.urlopen(request) as reply:
                return reply.read().decode()
        except urllib.error.HTTPError as fault:
            raise RuntimeError(f"ClickHouse: {fault.read().decode()[:300]}") from None

    def version(self):
        return f"ClickHouse {self.send('select version()').strip()}"

    def ask(self, text, seconds=None, megabytes=None):
        begin, start = child.processor_seconds(self.server.pid), time.monotonic()
        try:
            said = self.send(text)
        except RuntimeError as fault:
            return Answer(0.0, 0.0, None, str(fault))
        took = child.processor_seconds(self.server.pid) - begin, time.monotonic() - start
        return Answer(*took, [line.split("\t") for line in said.splitlines()])

    def peak(self):
        with open(f"/proc/{self.server.pid}/status", encoding="ascii") as file:
            return next(int(it.split()[1]) // 1024 for it in file if it.startswith("VmHWM:"))

    def close(self):
        if self.server:
            self.server.send_signal(signal.SIGKILL)
            self.server.wait()
        shutil.rmtree(self.room, ignore_errors=True)
