"""A cluster of MariaDB in a temporary folder."""

import itertools

from servers import MariaServer, need, pymysql
from tests.needs import need_file

LIBRARY = "/usr/lib/galera/libgalera_smm.so"


class Node(MariaServer):
    # The seconds of silence until the other nodes take a node for dead: on a slow machine it may
    # have to wait for the processor.
    silence = 60
    cluster = ()

    @property
    def more_lines(self):
        base, port = self.port + 1, self.port
        nodes = ",".join(f"127.0.0.1:{it.port + 1}" for it in self.cluster)
        short, long = f"PT{self.silence}S", f"PT{self.silence * 3}S"
        silence = f"evs.suspect_timeout={short};evs.inactive_timeout={long}"
        return [
            *("binlog_format=ROW", "innodb_autoinc_lock_mode=2"),
            *("wsrep_on=ON", f"wsrep_provider={LIBRARY}", "wsrep_sst_method=rsync"),
            *("wsrep_cluster_name=rigzumal", f"wsrep_cluster_address=gcomm://{nodes}"),
            f"wsrep_node_name={self.folder.name}",
            f"wsrep_node_address=127.0.0.1:{base}",
            f"wsrep_sst_receive_address=127.0.0.1:{port + 4}",
            f'wsrep_provider_options="base_port={base};gcache.size=32M;'
            f"ist.recv_addr=127.0.0.1:{port + 3};{silence};pc.wait_prim_timeout=PT300S;"
            f'gmcast.listen_addr=tcp://127.0.0.1:{base}"',
        ]

    def answers(self):
        """Whether a node answers: only a synced node does; a joining node, or one that copies to
        it, refuses or waits."""
        shown = "SHOW STATUS LIKE 'wsrep_local_state_comment'"
        return self.as_root(shown)[0][1] == "Synced"


class Galera:
    """The nodes of a cluster: connections use them in turn, and read what other nodes committed."""

    def __init__(self, name, count=2, silence=Node.silence):
        need_file(LIBRARY)
        need(pymysql, "pymysql", "rsync")
        self.nodes = [Node(f"{name}{number}") for number in range(count)]
        places = ",".join(f"127.0.0.1:{node.port}" for node in self.nodes)
        self.turns, self.url = itertools.cycle(self.nodes), f"mysql://store:store@{places}/store"
        for node in self.nodes:
            node.cluster, node.silence = self.nodes, silence

    def start(self):
        first, *others = self.nodes
        first.start("--wsrep-new-cluster")
        for node in others:
            node.start()
        for node in self.nodes:
            node.wait()
        return self

    def connect(self, **more):
        conn = next(self.turns).connect(**more)
        with conn.cursor() as cursor:
            cursor.execute("SET SESSION wsrep_sync_wait = 1")
        return conn
