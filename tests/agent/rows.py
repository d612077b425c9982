"""Replies of providers, each with what has to come of it: what it says was measured, or how the
text of the failure goes. The words are of docs/ARGO.md, RFC 9112, RFC 8259 and the HTTP API of
Prometheus; what these leave open may be either."""
import collections
import gzip
import json
import re
import socket
import struct
import time

from agents import of_prometheus, of_web, reply, vector

# `answer` is bytes, or a function of the connection. `value` is what is reported as an export
# writes it, `says` how a failure goes; with both, either may come.
Row = collections.namedtuple("Row", "name kind answer value says condition more")

HEAD = b"HTTP/1.1 200 OK\r\n"
GOOD = b"0.25"
MOST = 1_048_576
GREATEST = "9223372036854775803"
NAN, LESS, GREATER = "-9223372036854775808", "-9223372036854775807", "9223372036854775807"
FEW, LONG, CUT, NO_HTTP = "timeout", "long", "ended|cut|connection", "HTTP|compressed"
ONE, FIRST = "result >= 0.5", "result[0] >= 0.5"
FLOAT, FLOATS = "asFloat(result) >= 0.95", "asFloat(result[0]) < 1 && asFloat(result[1]) < 1"
INT = "asInt(result) >= 5"
ANY = "."
ESCAPES = "\x1b[31mred\x1b]0;title\x07\x9b2J\u202e\u2028\x00\r\n\t\x7f"


def web(name, answer, value=None, says=None, condition=ONE, **more):
    return Row(name, "web", answer, value, says, condition, more)


def raw(name, body, value=None, says=None, **more):
    """A body of `web` with a head as it has to be."""
    return web(name, reply(body), value, says, **more)


def prometheus(name, body, value=None, says=None, condition=FIRST):
    answer = body if isinstance(body, bytes) else reply(body)
    return Row(name, "prometheus", answer, value, says, condition, {})


def slowly(data, pause):
    def answer(client):
        for byte in data:
            client.sendall(bytes([byte]))
            time.sleep(pause)
    return answer


def silent(data=b""):
    """Sends this, and then nothing until the other side has had enough."""
    def answer(client):
        client.sendall(data)
        client.recv(1)
    return answer


def endless(begin, piece):
    def answer(client):
        client.sendall(begin)
        while True:
            client.sendall(piece)
            time.sleep(.001)
    return answer


def half_closed(data):
    """Sends this and no more, and goes on to hear."""
    def answer(client):
        client.sendall(data)
        client.shutdown(socket.SHUT_WR)
        client.recv(1)
    return answer


def reset(data=b"", pause=0.0):
    def answer(client):
        client.sendall(data)
        time.sleep(pause)
        client.setsockopt(socket.SOL_SOCKET, socket.SO_LINGER, struct.pack("ii", 1, 0))
    return answer


def chunked(*chunks, behind=b"0\r\n\r\n"):
    body = b"".join(b"%x\r\n%s\r\n" % (len(chunk), chunk) for chunk in chunks)
    return HEAD + b"Transfer-Encoding: chunked\r\n\r\n" + body + behind


def lengths(*given):
    return HEAD + b"".join(b"Content-Length: %s\r\n" % each for each in given) + b"\r\n" + GOOD


def fields(count, behind=reply(GOOD)[len(HEAD):]):
    return HEAD + b"A: b\r\n" * count + behind


FRAMES = [
    web("whole", reply(GOOD), "250000"),
    web("more-behind", reply(GOOD) + b"EXTRA", "250000"),
    web("chunks", chunked(b"0.", b"25"), "250000"),
    web("chunk-words", HEAD + b"Transfer-Encoding: chunked\r\n\r\n4;a=b\r\n0.25\r\n0\r\nX: y\r\n"
        b"\r\n", "250000"),
    web("small-chunks", chunked(*[b" "] * 3000, b"0.25"), "250000"),
    web("to-the-end", HEAD + b"\r\n" + GOOD, "250000"),
    web("bytes", slowly(reply(GOOD), .005), "250000"),
    web("bytes-of-chunks", slowly(chunked(b"0.", b"25"), .005), "250000"),
    web("slow", slowly(reply(b" " * 40 + GOOD), .5), says=FEW),
    web("slow-head", slowly(HEAD + b"A: b\r\n" * 20, .5), says=FEW),
    web("no-reply", silent(), says=FEW),
    web("half-a-head", silent(HEAD), says=FEW),
    web("no-body", silent(HEAD + b"Content-Length: 4\r\n\r\n"), says=FEW),
    web("no-end", silent(HEAD + b"\r\n0.25"), says=FEW),
    web("no-last-chunk", silent(chunked(GOOD, behind=b"")), says=FEW),
    web("closed", b"", says=CUT),
    web("cut-status", b"HTTP/1.1 20", says=CUT),
    web("cut-head", HEAD + b"Content-Len", says=CUT),
    web("cut-body", HEAD + b"Content-Length: 50\r\n\r\n0.25", says=CUT),
    web("cut-chunk", HEAD + b"Transfer-Encoding: chunked\r\n\r\n9\r\n0.2", says=CUT),
    web("cut-chunks", chunked(GOOD, behind=b""), says=CUT),
    web("reset", reset(), says=CUT),
    web("reset-head", reset(HEAD), says=CUT),
    web("reset-body", reset(HEAD + b"Content-Length: 50\r\n\r\n0.25", .05), says=CUT),
    web("reset-behind", reset(reply(GOOD), .1), "250000", says=CUT),
    web("length-and-chunks", HEAD + b"Content-Length: 4\r\nTransfer-Encoding: chunked\r\n\r\n4\r\n"
        b"0.25\r\n0\r\n\r\n", says=NO_HTTP),
    web("two-lengths", lengths(b"4", b"5"), says=NO_HTTP),
    web("same-lengths", lengths(b"4", b"4"), "250000", says=NO_HTTP),
    web("length-below-0", lengths(b"-4"), says=NO_HTTP),
    web("length-signed", lengths(b"+4"), says=NO_HTTP),
    web("length-no-number", lengths(b"four"), says=NO_HTTP),
    web("length-huge", lengths(b"9" * 24), says=f"{NO_HTTP}|{LONG}"),
    web("chunk-no-number", HEAD + b"Transfer-Encoding: chunked\r\n\r\nzz\r\n0.25", says=NO_HTTP),
    web("chunk-huge", HEAD + b"Transfer-Encoding: chunked\r\n\r\n" + b"F" * 17 + b"\r\n0.25",
        says=f"{NO_HTTP}|{LONG}"),
    web("chunk-below-0", HEAD + b"Transfer-Encoding: chunked\r\n\r\n-4\r\n0.25", says=NO_HTTP),
    web("gzip-chunks", HEAD + b"Transfer-Encoding: gzip, chunked\r\n\r\n4\r\n0.25\r\n0\r\n\r\n",
        says=NO_HTTP),
    web("gzip-body", reply(gzip.compress(GOOD), "200 OK", "Content-Encoding: gzip"),
        says="compressed by gzip"),
    web("chunked-twice", HEAD + b"Transfer-Encoding: chunked, chunked\r\n\r\n4\r\n0.25\r\n0\r\n"
        b"\r\n", says=NO_HTTP),
    web("chunked-not-last", HEAD + b"Transfer-Encoding: chunked, gzip\r\n\r\n4\r\n0.25\r\n0\r\n"
        b"\r\n", says=f"{NO_HTTP}|JSON"),
    web("identity", HEAD + b"Transfer-Encoding: identity\r\n\r\n0.25", "250000", says=NO_HTTP),
    web("chunk-by-lf", HEAD + b"Transfer-Encoding: chunked\r\n\r\n4\n0.25\n0\n\n", "250000",
        says=f"{NO_HTTP}|{CUT}"),
    web("chunk-too-long", HEAD + b"Transfer-Encoding: chunked\r\n\r\n4\r\n0.2500\r\n0\r\n\r\n",
        says=NO_HTTP),
    web("no-colon", HEAD + b"Content-Length 4\r\n\r\n0.25", says=NO_HTTP),
    web("space-before-colon", HEAD + b"Content-Length : 4\r\n\r\n0.25", says=NO_HTTP),
    web("length-of-0", HEAD + b"Content-Length: 0\r\n\r\n", says="JSON"),
    web("lengths-in-a-list", lengths(b"4, 4"), "250000", says=NO_HTTP),
    web("stays-open", silent(reply(GOOD)), "250000"),
    web("stays-open-chunks", silent(chunked(GOOD)), "250000"),
    web("half-closed", half_closed(reply(GOOD)), "250000"),
    web("half-closed-within", half_closed(HEAD + b"Content-Length: 9\r\n\r\n0.25"), says=CUT),
    web("trailers-of-the-head", chunked(GOOD, behind=b"0\r\nContent-Length: 1\r\nTransfer-Encoding:"
                                        b" gzip\r\nHTTP/1.1 500 No\r\n\r\n"), "250000",
        says=NO_HTTP),
    web("endless-trailers", endless(chunked(GOOD, behind=b"0\r\n"), b"A: " + b"b" * 60 + b"\r\n"),
        says=f"{LONG}|{NO_HTTP}"),
    web("continue", b"HTTP/1.1 100 Continue\r\n\r\n" + reply(GOOD), "250000"),
    web("early-hints", b"HTTP/1.1 100 Continue\r\n\r\nHTTP/1.1 103 Early\r\nA: b\r\n\r\n"
        + reply(GOOD), "250000"),
    web("continue-only", silent(b"HTTP/1.1 100 Continue\r\n\r\n"), says=FEW),
    web("endless-continues", endless(b"", b"HTTP/1.1 100 Continue\r\n\r\n" * 100), says=ANY),
    web("switch", b"HTTP/1.1 101 Switching\r\nUpgrade: h2c\r\n\r\n", says=NO_HTTP),
    web("http-1.0", b"HTTP/1.0 200 OK\r\n\r\n0.25", "250000", says=NO_HTTP),
    web("http-0.9", b"0.25\n", says=f"{NO_HTTP}|{CUT}"),
    web("http-2", b"PRI * HTTP/2.0\r\n\r\nSM\r\n\r\n", says=NO_HTTP),
    web("http-2-frames", b"\x00\x00\x12\x04\x00\x00\x00\x00\x00" + bytes(18), says=NO_HTTP),
    web("ssh", b"SSH-2.0-OpenSSH_9.2\r\n", says=NO_HTTP),
    web("tls", b"\x15\x03\x01\x00\x02\x02\x16", says=NO_HTTP),
    web("lines-by-lf", b"HTTP/1.1 200 OK\nContent-Length: 4\n\n0.25", "250000", says=NO_HTTP),
    web("folded", HEAD + b"A: b\r\n c\r\nContent-Length: 4\r\n\r\n0.25", "250000", says=NO_HTTP),
    web("nul-in-head", HEAD + b"A: \0\r\nContent-Length: 4\r\n\r\n0.25", "250000", says=NO_HTTP),
    web("endless-head", endless(HEAD, b"A: " + b"b" * 60 + b"\r\n"), says=LONG),
    web("endless-field", endless(HEAD + b"A: ", b"b" * 1000), says=LONG),
    web("long-head-cut", silent(HEAD + b"A: " + b"b" * 16_384), says=LONG),
    web("endless-body", endless(HEAD + b"\r\n", b" " * 65536), says=LONG),
    web("endless-words", endless(HEAD + b"Transfer-Encoding: chunked\r\n\r\n4;", b"e" * 1000),
        says=f"{LONG}|{NO_HTTP}"),
    web("endless-zeros", endless(HEAD + b"Transfer-Encoding: chunked\r\n\r\n", b"0" * 1000),
        says=f"{LONG}|{NO_HTTP}|{FEW}"),
    web("fields-64", fields(63), "250000"),
    web("fields-65", fields(64), says=LONG),
    web("trailers-16", chunked(GOOD, behind=b"0\r\n" + b"A: b\r\n" * 16 + b"\r\n"), "250000"),
    web("trailers-17", chunked(GOOD, behind=b"0\r\n" + b"A: b\r\n" * 17 + b"\r\n"), says=LONG),
    web("a-megabyte", reply(GOOD.rjust(MOST)), "250000"),
    web("more-than-a-megabyte", reply(GOOD.rjust(MOST + 1)), says=LONG),
    web("a-megabyte-in-chunks", chunked(*[b" " * 65536] * 16, GOOD), says=LONG),
]

STATUSES = [
    web("204", b"HTTP/1.1 204 No Content\r\n\r\n", says=ANY),
    web("204-and-a-body", b"HTTP/1.1 204 No Content\r\nContent-Length: 4\r\n\r\n0.25", says=ANY),
    web("205", reply("", "205 Reset Content"), says="JSON"),
    web("206", reply(GOOD, "206 Partial Content", "Content-Range: bytes 0-3/9"), "250000"),
    web("307", reply("", "307 Temporary", "Location: /307"), says="307"),
    web("308", reply(GOOD, "308 Permanent", "Location: //other.example/"), says="308"),
    web("a-status-of-escapes", b"HTTP/1.1 500 \x1b[31mred\r\nContent-Length: 0\r\n\r\n",
        says=f"500|{NO_HTTP}"),
    web("a-status-of-2-digits", b"HTTP/1.1 20 OK\r\nContent-Length: 4\r\n\r\n0.25", says=NO_HTTP),
    web("a-status-of-4-digits", b"HTTP/1.1 2000 OK\r\nContent-Length: 4\r\n\r\n0.25",
        says=NO_HTTP),
    web("301", reply("", "301 Moved", "Location: http://127.0.0.1:1/"), says="301"),
    web("302", reply(GOOD, "302 Found", "Location: /whole"), says="302"),
    web("304", b"HTTP/1.1 304 Not Modified\r\nContent-Length: 7\r\n\r\n", says="304"),
    web("400", reply(GOOD, "400 Bad Request"), says="400"),
    web("401", reply("login", "401 Unauthorized"), says="401.*login"),
    web("404", reply("", "404 Not Found"), says="404"),
    web("429", reply("slower", "429 Too Many Requests"), says="429.*slower"),
    web("500", reply(GOOD, "500 Oops"), says="500"),
    web("502", reply("<html>\r\n<head><title>502 Bad Gateway</title>" + "\u00e9" * 300 + ESCAPES,
                     "502 Bad Gateway"), says="502.*Bad Gateway"),
    web("999", reply(GOOD, "999 Odd"), says="999"),
    web("099", b"HTTP/1.1 099 Odd\r\nContent-Length: 4\r\n\r\n0.25", says=ANY),
    web("no-status", b"HTTP/1.1 OK\r\nContent-Length: 4\r\n\r\n0.25", says=NO_HTTP),
    web("201", reply(GOOD, "201 Created"), "250000"),
    web("long-reason", b"HTTP/1.1 200 " + b"a" * 9000 + b"\r\nContent-Length: 4\r\n\r\n0.25",
        "250000"),
]

VALUES = [
    raw("null", "null", says="null"),
    raw("spaces", " \t\r\n0.25 \n", "250000"),
    raw("exponent", "2.5e-1", "250000"),
    raw("great-exponent", "1E+2", "100000000"),
    raw("below-0", "-0.25", "-250000"),
    raw("minus-0", "-0.0", "0"),
    raw("7-places", "0.1234567", "123456"),
    raw("7-places-up-to-0", "0.1234501", "123451"),
    raw("too-small", "1e-400", "1"),
    raw("too-great", "1e400", GREATEST),
    raw("too-great-below-0", "-1e400", "-" + GREATEST),
    raw("no-float", "1e999999999999999999999", GREATEST, says="number"),
    raw("400-digits", "1" * 400, GREATEST),
    raw("400-places", "0." + "0" * 400 + "1", "1"),
    raw("400-places-of-0.25", "0.25" + "0" * 400, "250000"),
    raw("empty", "", says=ANY),
    raw("html", "<!DOCTYPE html><title>Log in</title>", says="JSON.*Log in"),
    raw("no-json", "{0.25}", says="JSON"),
    raw("half-of-json", '{"value": 0.2', says="JSON"),
    raw("two-values", "0.25 0.5", says="JSON"),
    raw("more-behind-it", "0.25x", says="JSON"),
    raw("nan", "NaN", says="JSON"),
    raw("infinity", "-Infinity", says="JSON"),
    raw("zeros-first", "00.25", says="JSON"),
    raw("plus", "+0.25", says="JSON"),
    raw("point", "25.", says="JSON"),
    raw("no-utf-8", b"\xff\xfe\x00\x1b[31m", says=ANY),
    raw("no-utf-8-in-it", b'{"value": 0.25, "a": "\xff\xfe"}', says=ANY,
        jsonPath="{$.value}"),
    raw("utf-16", "0.25".encode("utf-16"), says=ANY),
    raw("bom", b"\xef\xbb\xbf0.25", "250000", says=ANY),
    raw("nul", b"0.25\x00", says="JSON"),
    raw("controls", ESCAPES.encode(), says="JSON"),
    raw("deep", "[" * 100_000 + "]" * 100_000, says=ANY),
    raw("deep-object", '{"a":' * 50_000 + "1" + "}" * 50_000, says=ANY),
    raw("a-text", '"0.25"', says="text.*asFloat"),
    raw("a-text-of-escapes", json.dumps(ESCAPES), says="text"),
    raw("text-of-a-number", '{"v":"0.96"}', "960000", condition=FLOAT, jsonPath="{$.v}"),
    raw("text-beside-a-number", '["0.25", 0.5]', "[250000;500000]", condition=FLOATS),
    raw("number-of-as-float", "0.96", "960000", condition=FLOAT),
    raw("text-with-signs", '"+.096E+1"', "960000", condition=FLOAT),
    raw("text-with-a-point-at-its-end", '"-5."', "-5000000", condition=FLOAT),
    raw("text-with-escapes-of-json", '"\\u0030.96"', "960000", condition=FLOAT),
    raw("text-of-nan", '"nAn"', NAN, condition=FLOAT),
    raw("text-of-inf", '"Inf"', GREATEST, condition=FLOAT),
    raw("text-of-infinity", '"+iNFINITY"', GREATEST, condition=FLOAT),
    raw("text-of-minus-inf", '"-inf"', "-" + GREATEST, condition=FLOAT),
    raw("text-of-plus-nan", '"+NaN"', says="text", condition=FLOAT),
    raw("text-of-2-to-the-63", '"9223372036854775808"', GREATEST, condition=FLOAT),
    raw("text-in-range", '"9.99e307"', GREATEST, condition=FLOAT),
    raw("text-out-of-range", '"1e308"', says="text", condition=FLOAT),
    raw("text-of-1e309", '"-1e309"', says="text", condition=FLOAT),
    raw("text-of-0e9999", '"0e9999"', "0", condition=FLOAT),
    raw("text-too-small", '"1e-400"', "1", condition=FLOAT),
    raw("text-of-no-number", '"up"', says="text", condition=FLOAT),
    raw("empty-text", '""', says="text", condition=FLOAT),
    raw("text-with-a-blank", '"0.96 "', says="text", condition=FLOAT),
    raw("text-of-a-point", '"."', says="text", condition=FLOAT),
    raw("text-of-half-an-exponent", '"1e"', says="text", condition=FLOAT),
    raw("text-in-hexadecimal", '"0x1p-2"', says="text", condition=FLOAT),
    raw("text-with-underscores", '"1_000"', says="text", condition=FLOAT),
    raw("text-of-5-digits-of-power", '"1e00001"', says="text", condition=FLOAT),
    raw("text-of-controls", json.dumps(ESCAPES), says="text", condition=FLOAT),
    raw("whole-text", '"+0012"', "12000000", condition=INT),
    raw("greatest-whole-text", '"9223372036854775807"', GREATEST, condition=INT),
    raw("least-whole-text", '"-9223372036854775808"', "-" + GREATEST, condition=INT),
    raw("whole-text-too-great", '"9223372036854775808"', says="text", condition=INT),
    raw("whole-text-too-small", '"-9223372036854775809"', says="text", condition=INT),
    raw("text-of-no-whole-number", '"5.7"', says="text", condition=INT),
    raw("whole-text-with-a-power", '"1e3"', says="text", condition=INT),
    raw("text-of-nan-of-as-int", '"NaN"', says="text", condition=INT),
    raw("number-of-as-int", "5.7", "5700000", condition=INT),
    raw("text-beside-as-int", '"5"', says="text", condition="result > 1 && asInt(result) > 1"),
    raw("text-by-default", '"5"', says="text", condition="default(result, 0) < 0.5"),
    raw("half-a-surrogate", '"\\ud800"', says=ANY),
    raw("true", "true", says="true"),
    raw("object", '{"value": 0.25}', says="object"),
    raw("a-list-for-one", "[0.25]", says="list for one"),
    raw("one-for-a-list", "0.25", says="one value", condition=FIRST),
    raw("list", "[0.25, 0.5, 0.75]", "250000", condition=FIRST),
    raw("list-of-two", "[0.25, 2e0, 0.75]", "[250000;2000000]",
        condition="result[0] < 0.5 && result[1] > 0.5"),
    raw("empty-list", "[]", says="no value", condition=FIRST),
    raw("list-of-nothing", "[null]", says="null", condition=FIRST),
    raw("list-and-a-text", '["0.5", 0.25]', says="text", condition=FIRST),
    raw("list-and-a-text-behind", '[0.25, "0.5"]', "250000", condition=FIRST),
    raw("list-of-lists", "[[0.25]]", says="list", condition=FIRST),
    raw("long-list", json.dumps([0.25] * 100_000), "250000", condition=FIRST),
    raw("a-path-through-null", '{"value": null}', says=ANY, jsonPath="{$.value.of}"),
    raw("a-path-through-a-text", '{"value": "0.25"}', says="jsonPath", jsonPath="{$.value.of}"),
    raw("a-path-to-null", '{"value": null}', says=ANY, jsonPath="{$.value}"),
    raw("an-index-of-an-object", '{"0": 0.25}', says="jsonPath", jsonPath="{$[0]}"),
    raw("member", '{"a": [1, {"b": 0.25}]}', "250000", jsonPath="{$.a[1].b}"),
    raw("member-twice", '{"value": 0.5, "value": 0.25}', "250000", jsonPath="{$.value}"),
    raw("no-member", '{"values": 0.25}', says="jsonPath", jsonPath="{$.value}"),
    raw("no-item", '{"value": [0.25]}', says="jsonPath", jsonPath="{$.value[1]}"),
    raw("null-by-default", "null", "-9223372036854775806", condition="default(result, 0) < 0.5"),
]

PROBLEM = {"status": "error", "errorType": "bad_data",
           "error": "invalid parameter \"query\": 1:3: parse error\n" + ESCAPES + "x" * 5000}


def said(kind, result, **more):
    return {"status": "success", "data": {"resultType": kind, "result": result}, **more}


ANSWERS = [
    prometheus("a-series", vector("0.25"), "250000"),
    prometheus("several-series", vector("0.25", "NaN"), "250000"),
    prometheus("several-and-no-number", vector("0.25", "x"), "250000", says="number.*x"),
    prometheus("warned", said("vector", [{"metric": {}, "value": [1, "0.25"]}],
                              warnings=[ESCAPES]), "250000"),
    prometheus("two-of-three", vector("0.25", "2", "3"), "[250000;2000000]",
               condition="result[0] < 0.5 && result[1] > 0.5"),
    prometheus("one-of-two", vector("0.25"), "[250000]",
               condition="result[0] < 0.5 && result[1] > 0.5"),
    prometheus("scalar", said("scalar", [1, "1e-5"]), "10", condition=ONE),
    prometheus("scalar-for-a-list", said("scalar", [1, "0.25"]), says="one value"),
    prometheus("list-for-one", vector("0.25"), says="list for one", condition=ONE),
    prometheus("a-string", said("string", [1, "0.25"]), says="string"),
    prometheus("matrix", said("matrix", [{"metric": {}, "values": [[1, "0.25"]]}]), says="matrix"),
    prometheus("no-series", vector(), says="no value|empty|series"),
    prometheus("no-series-of-two", vector(), says="no value|empty|series",
               condition="result[0] < 0.5 && result[1] > 0.5"),
    prometheus("no-series-counted", vector(), "[0]",
               condition="len(result) == 0 || result[0] < 0.5"),
    prometheus("series-counted", vector("0.25", "0.5"), "[2;250000]",
               condition="len(result) == 0 || result[0] < 0.5"),
    prometheus("is-nan", vector("NaN"), NAN),
    prometheus("is-nan-of-as-int", vector("NaN"), says="NaN", condition="asInt(result[0]) > 5"),
    prometheus("is-nan-beside-as-int", vector("NaN"), says="NaN",
               condition="result[0] > 5 || asInt(result[0]) > 5"),
    prometheus("is-nan-of-as-float", vector("NaN"), NAN, condition="asFloat(result[0]) > 5"),
    prometheus("is-nan-asked", vector("NaN"), NAN, condition="isNaN(result[0]) || result[0] < 1"),
    prometheus("inf", vector("+Inf"), GREATEST),
    prometheus("minus-inf", vector("-Inf"), "-" + GREATEST),
    prometheus("inf-of-as-int", vector("+Inf"), GREATEST, condition="asInt(result[0]) > 5"),
    prometheus("inf-beside-as-int", vector("-Inf"), "-" + GREATEST,
               condition="result[0] > 5 || asInt(result[0]) > 5"),
    prometheus("inf-asked", vector("+Inf"), GREATER, condition="isInf(result[0]) || result[0] < 1"),
    prometheus("minus-inf-asked", vector("-Inf"), LESS,
               condition="isInf(result[0]) || result[0] < 1"),
    prometheus("no-number", vector("abc\x07\x9b"), says="number.*abc"),
    prometheus("a-number-for-a-text", said("vector", [{"metric": {}, "value": [1, 0.25]}]),
               says=ANY),
    prometheus("histogram", said("vector", [{"metric": {}, "histogram": [1, {}]}]), says=ANY),
    prometheus("problem", reply(PROBLEM, "400 Bad Request"), says="400.*bad_data.*parse error"),
    prometheus("problem-of-200", reply(PROBLEM), says=ANY),
    prometheus("execution", reply({"status": "error", "errorType": "timeout", "error": "query timed"
                                   " out"}, "503 Service Unavailable"), says="503.*timed out"),
    prometheus("proxy", reply("<html>upstream", "504 Gateway Timeout"), says="504.*upstream"),
    prometheus("other-json", {"value": 0.25}, says="Prometheus"),
    prometheus("no-data", {"status": "success"}, says="data"),
    prometheus("no-result", {"status": "success", "data": {"resultType": "vector"}}, says="result"),
    prometheus("no-kind", {"status": "success", "data": {"result": []}}, says="type"),
    prometheus("no-list", said("vector", {}), says="list"),
    prometheus("status-twice", '{"status":"error","data":{"resultType":"vector","result":['
               '{"value":[1,"9"]}],"result":[{"value":[1,"0.25"]}]},"status":"success"}', "250000"),
    prometheus("signed-nan", vector("-NaN"), NAN, says="number|NaN",
               condition="isNaN(result[0]) || result[0] < 1"),
    prometheus("inf-without-sign", vector("Inf"), GREATER, says="number",
               condition="isInf(result[0]) || result[0] < 1"),
    prometheus("hexadecimal", vector("0x1p-2"), says="number"),
    prometheus("underscores", vector("1_000"), says="number"),
    prometheus("an-empty-text", vector(""), says="number"),
    prometheus("spaces-around", vector(" 0.25 "), "250000", says="number"),
    prometheus("1000-digits", vector("9" * 1000), GREATEST),
    prometheus("a-value-of-one", said("vector", [{"metric": {}, "value": [1]}]), says="value"),
    prometheus("a-value-of-null", said("vector", [{"metric": {}, "value": None}]), says="value"),
    prometheus("a-series-of-null", said("vector", [None]), says="value"),
    prometheus("capital-success", {"status": "Success", "data": {}}, says="Prometheus"),
    prometheus("nan-within", said("vector", [{"metric": {}, "value": [1, "0.25"]},
                                             {"metric": {}, "value": [1, "NaN"]}]),
               f"[250000;{NAN}]", condition="result[0] < 0.5 && result[1] < 0.5"),
    prometheus("many-series", vector(*["0.25"] * 5000), "250000"),
    prometheus("null-of-prometheus", "null", says=ANY),
]


def provider_of(row, port):
    """What a manifest says of the provider of a row."""
    if row.kind == "web":
        return of_web(port, row.name, **row.more)
    return of_prometheus(port, row.name)


def is_as_wanted(row, measured):
    """Whether this came of the reply of a row."""
    if row.value is not None and measured.result == row.value:
        return True
    return row.says is not None and bool(measured.failure) \
        and re.search(row.says, measured.failure, re.DOTALL) is not None
