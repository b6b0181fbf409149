"""Runs a page's change within the transaction of an ORM's session, from the file that the argument
names. On SQLite, SQLAlchemy's own transactions begin by BEGIN IMMEDIATE, as its pages show."""

import pathlib
import sys

import sqlalchemy
from rigzumal import PasswordHasher
from rigzumal.accounts import Accounts, Reply, Sqlite, of_engine
from sqlalchemy import event, orm

LOW = PasswordHasher(time_cost=1, memory_cost=64, parallelism=1)
Base = orm.declarative_base()


class User(Base):
    __tablename__ = "users"
    email = sqlalchemy.Column(sqlalchemy.String, primary_key=True)
    record = sqlalchemy.Column(sqlalchemy.String)


class Audit(Base):
    """One row for each address, so that the table refuses a second change of one address."""

    __tablename__ = "audit"
    email = sqlalchemy.Column(sqlalchemy.String, primary_key=True)


class Overtaken(Accounts):
    """Somebody else changes the password while each operation hashes."""

    def work(self, ticket):
        worked = super().work(ticket)
        self.reset(ticket.request.key, "somebody else's")
        return worked


def main():
    url = "sqlite:///users.db"
    engine = sqlalchemy.create_engine(url)
    event.listen(engine, "connect", lambda conn, _: setattr(conn, "isolation_level", None))
    event.listen(engine, "begin", lambda conn: conn.exec_driver_sql("BEGIN IMMEDIATE"))
    Base.metadata.create_all(engine)
    with engine.begin() as conn:
        rows = [{"email": it, "record": LOW.hash("old")} for it in ("ada", "ben")]
        conn.execute(User.__table__.insert(), rows)
    pool = of_engine(sqlalchemy.create_engine(url, isolation_level="AUTOCOMMIT"))
    given = (pool, Sqlite("users", "email", "record"), LOW)
    accounts, code = Accounts(*given), pathlib.Path(sys.argv[1]).read_text()

    def check(of_page, email, old, reply, password, audits):
        names = {"Audit": Audit, "accounts": of_page}
        exec(code, names)
        with orm.Session(engine) as session:
            try:
                told = names["change"](session, email, old, "new")
            except sqlalchemy.exc.IntegrityError as refused:
                told = type(refused)
        assert told is reply, (told, reply)
        assert accounts.verify(email, password) is Reply.YES
        with orm.Session(engine) as session:
            assert session.query(Audit).count() == audits

    check(accounts, "ada", "a guess", Reply.WRONG, "old", 0)
    check(accounts, "ada", "old", Reply.REPLACED, "new", 1)
    check(accounts, "ada", "new", sqlalchemy.exc.IntegrityError, "new", 1)
    check(Overtaken(*given), "ben", "old", Reply.CHANGED, "somebody else's", 1)


main()
