// A client's end of a WebSocket, as much of it as the debugging port of a browser needs.
import crypto from 'node:crypto';
import net from 'node:net';

export class Socket {
  constructor(url) {
    const { hostname, port, pathname } = new URL(url);
    this.onmessage = () => {};
    this.parts = [];
    this.kept = Buffer.alloc(0);
    this.stream = net.connect(+port, hostname);
    this.ready = new Promise((done) => { this.greeted = done; });
    this.stream.on('connect', () => this.stream.write(`GET ${pathname} HTTP/1.1\r\nHost: ${hostname}:${port}\r\nUpgrade: websocket\r\nConnection: Upgrade\r\nSec-WebSocket-Key: ${crypto.randomBytes(16).toString('base64')}\r\nSec-WebSocket-Version: 13\r\n\r\n`));
    this.stream.on('data', (data) => { this.kept = this.kept.length ? Buffer.concat([this.kept, data]) : data; this.take(); });
    this.stream.on('error', () => {});
  }
  take() {
    if (this.greeted) {
      const end = this.kept.indexOf('\r\n\r\n');
      if (end < 0) return;
      this.kept = this.kept.subarray(end + 4);
      this.greeted();
      this.greeted = null;
    }
    for (;;) {
      if (this.kept.length < 2) return;
      let long = this.kept[1] & 127, from = 2;
      if (long === 126) { if (this.kept.length < 4) return; long = this.kept.readUInt16BE(2); from = 4; }
      else if (long === 127) { if (this.kept.length < 10) return; long = Number(this.kept.readBigUInt64BE(2)); from = 10; }
      if (this.kept.length < from + long) return;
      const last = (this.kept[0] & 128) !== 0, kind = this.kept[0] & 15;
      if (kind < 3) this.parts.push(this.kept.subarray(from, from + long));
      this.kept = this.kept.subarray(from + long);
      if (kind < 3 && last) { const text = Buffer.concat(this.parts).toString(); this.parts = []; this.onmessage(text); }
    }
  }
  send(text) {
    const data = Buffer.from(text), mask = crypto.randomBytes(4), long = data.length;
    const head = long < 126 ? Buffer.from([0x81, 128 | long]) : long < 65536 ? Buffer.from([0x81, 254, long >> 8, long & 255]) : Buffer.concat([Buffer.from([0x81, 255]), (() => { const size = Buffer.alloc(8); size.writeBigUInt64BE(BigInt(long)); return size; })()]);
    for (let i = 0; i < long; i++) data[i] ^= mask[i & 3];
    this.stream.write(Buffer.concat([head, mask, data]));
  }
  close() { this.stream.destroy(); }
}
