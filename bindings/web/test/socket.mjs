// A client of a WebSocket on loopback, as browsers' remote protocols want: text frames only. (Node 18 and 20 have none.)
import { createConnection } from 'node:net';
import { randomBytes } from 'node:crypto';

function frameOf(text) {
  const data = Buffer.from(text), mask = randomBytes(4), length = data.length;
  const size = length < 126 ? [128 + length] : length < 65536 ? [254, length >> 8, length & 255] : [255, 0, 0, 0, 0, ...[24, 16, 8, 0].map(it => (length >>> it) & 255)];
  for (let at = 0; at < length; at++) data[at] ^= mask[at & 3];
  return Buffer.concat([Buffer.from([129, ...size]), mask, data]);
}

// Takes the first frame off the bytes: its end, whether it ends a message, its kind and its data. Nothing if it is not whole.
function firstFrame(bytes) {
  if (bytes.length < 2) return null;
  const short = bytes[1] & 127, more = short === 126 ? 2 : short === 127 ? 8 : 0;
  if (bytes.length < 2 + more) return null;
  const length = more === 2 ? bytes.readUInt16BE(2) : more === 8 ? Number(bytes.readBigUInt64BE(2)) : short;
  const end = 2 + more + length;
  return bytes.length < end ? null : { end, isLast: bytes[0] >= 128, kind: bytes[0] & 15, data: bytes.subarray(2 + more, end) };
}

// Connects to ws://127.0.0.1:PORT/PATH, and returns a function that sends a command and waits for its answer.
export async function connect(port, path) {
  const socket = createConnection(port, '127.0.0.1');
  await new Promise((done, failed) => { socket.once('connect', done); socket.once('error', failed); });
  const key = randomBytes(16).toString('base64');
  socket.write(`GET ${path} HTTP/1.1\r\nHost: 127.0.0.1:${port}\r\nUpgrade: websocket\r\nConnection: Upgrade\r\nSec-WebSocket-Key: ${key}\r\nSec-WebSocket-Version: 13\r\n\r\n`);
  const waiting = new Map();
  let bytes = Buffer.alloc(0), isOpen = false, parts = [], last = 0;
  const answer = text => {
    const it = JSON.parse(text), who = waiting.get(it.id);
    waiting.delete(it.id);
    if (it.error) who?.failed(new Error(JSON.stringify(it.error) + (it.message ?? '')));
    else who?.done(it.result);
  };
  const opened = new Promise((done, failed) => {
    socket.on('error', failed);
    socket.on('close', () => { for (const { failed } of waiting.values()) failed(new Error('the browser went away')); });
    socket.on('data', data => {
      bytes = Buffer.concat([bytes, data]);
      if (!isOpen) {
        const end = bytes.indexOf('\r\n\r\n');
        if (end < 0) return;
        isOpen = bytes.subarray(0, 12).toString().endsWith('101');
        if (!isOpen) failed(new Error(bytes.subarray(0, end).toString()));
        bytes = bytes.subarray(end + 4);
        done();
      }
      for (let it = firstFrame(bytes); it; it = firstFrame(bytes)) {
        bytes = bytes.subarray(it.end);
        if (it.kind > 2) continue;
        parts.push(it.data);
        if (it.isLast) answer(Buffer.concat(parts.splice(0)).toString());
      }
    });
  });
  await opened;
  const call = (method, params = {}, more = {}) => new Promise((done, failed) => {
    waiting.set(++last, { done, failed });
    socket.write(frameOf(JSON.stringify({ id: last, method, params, ...more })));
  });
  return { call, close: () => socket.destroy() };
}
