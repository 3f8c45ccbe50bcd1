// A client of a web socket (RFC 6455), as far as a browser's remote control needs it: texts of any length, in both directions. The
// one in Node 20 breaks off after 4,096 texts.
import { randomBytes } from 'node:crypto';
import { once } from 'node:events';
import { connect } from 'node:net';

const LAST = 0x80, MASKED = 0x80; // bits of a frame's first and second byte
const MORE = 0, TEXT = 1, PING = 9, PONG = 10; // kinds of frames
const SHORT = 126, LONG = 127; // a length that follows in 2 or in 8 bytes

/** A frame of the client, whose bytes are masked. */
function frame(kind, bytes) {
  const length = Buffer.alloc(bytes.length < SHORT ? 1 : bytes.length < 0x10000 ? 3 : 9);
  if (length.length === 1) length[0] = MASKED | bytes.length;
  else if (length.length === 3) (length[0] = MASKED | SHORT, length.writeUInt16BE(bytes.length, 1));
  else (length[0] = MASKED | LONG, length.writeBigUInt64BE(BigInt(bytes.length), 1));
  const mask = randomBytes(4);
  return Buffer.concat([Buffer.from([LAST | kind]), length, mask, bytes.map((byte, n) => byte ^ mask[n % 4])]);
}

/** The server's first frame in these bytes, and where it ends; nothing if it isn't whole. */
function firstFrame(bytes) {
  if (bytes.length < 2) return null;
  const short = bytes[1], from = short === SHORT ? 4 : short === LONG ? 10 : 2;
  if (bytes.length < from) return null;
  const length = short === SHORT ? bytes.readUInt16BE(2) : short === LONG ? Number(bytes.readBigUInt64BE(2)) : short;
  return bytes.length < from + length ? null : { kind: bytes[0] & 15, last: (bytes[0] & LAST) !== 0, data: bytes.subarray(from, from + length), end: from + length };
}

/** Connects to an address `ws://..`. Each text that comes is given to `heard`, and the end of the connection to `ended`. */
export async function webSocket(address, heard, ended) {
  const { host, hostname, port, pathname } = new URL(address), socket = connect(Number(port), hostname);
  await once(socket, 'connect');
  socket.setNoDelay();
  socket.write(`GET ${pathname} HTTP/1.1\r\nHost: ${host}\r\nUpgrade: websocket\r\nConnection: Upgrade\r\n`
    + `Sec-WebSocket-Key: ${randomBytes(16).toString('base64')}\r\nSec-WebSocket-Version: 13\r\n\r\n`);
  let bytes = Buffer.alloc(0), parts = [], isOpen = false;
  const opened = new Promise((yes, no) => {
    socket.on('data', data => {
      bytes = Buffer.concat([bytes, data]);
      if (!isOpen) {
        const end = bytes.indexOf('\r\n\r\n');
        if (end < 0) return;
        if (!bytes.toString('latin1').startsWith('HTTP/1.1 101 ')) return no(new Error(bytes.toString('latin1', 0, end)));
        bytes = bytes.subarray(end + 4);
        isOpen = true;
        yes();
      }
      for (let found; (found = firstFrame(bytes)); bytes = bytes.subarray(found.end)) {
        if (found.kind === PING) socket.write(frame(PONG, found.data));
        if (found.kind !== TEXT && found.kind !== MORE) continue;
        parts.push(found.data);
        if (!found.last) continue;
        const text = Buffer.concat(parts).toString('utf8');
        parts = [];
        heard(text);
      }
    });
    socket.on('error', no);
  });
  socket.on('close', ended);
  await opened;
  return { send: text => socket.write(frame(TEXT, Buffer.from(text))) };
}
