'use strict';
// Files that are printed again when they change: a change in one of their folders is noticed, and then each file is looked at.
const { statSync, watch } = require('fs');
const { Fault } = require('./trees.js');

const PAUSE = 100; // milliseconds, in which an editor writes a file

function stampOf(path) {
  try {
    const { mtimeMs, size, ino } = statSync(path);
    return `${mtimeMs} ${size} ${ino}`;
  } catch (error) {
    return null;
  }
}

class Watch {
  // `files` lists the files of the run as they are now, `foldersOf` the folders that they may be in, and `print` prints some of them.
  constructor({ files, foldersOf, print }) {
    Object.assign(this, { files, foldersOf, print, stamps: new Map(), folders: new Map(), timer: null, isBusy: false });
  }

  begin(files) {
    files.forEach(({ path }) => this.stamps.set(path, stampOf(path)));
    this.lookAt(files);
  }

  // Watches these folders, and no others.
  lookAt(files) {
    const wanted = this.foldersOf(files);
    for (const [folder, watcher] of this.folders) {
      if (!wanted.has(folder)) {
        watcher.close();
        this.folders.delete(folder);
      }
    }
    for (const folder of wanted) {
      if (!this.folders.has(folder)) this.follow(folder);
    }
  }

  follow(folder) {
    try {
      const watcher = watch(folder, () => this.soon());
      watcher.on('error', () => this.folders.delete(folder));
      this.folders.set(folder, watcher);
    } catch (error) {
      // (it is gone: what was in it is told as missing)
    }
  }

  soon() {
    clearTimeout(this.timer);
    this.timer = setTimeout(() => this.look(), PAUSE);
  }

  // Prints what changed since it was last looked at.
  async look() {
    if (this.isBusy) {
      this.soon();
      return;
    }
    this.isBusy = true;
    try {
      const files = this.files(), changed = files.filter(({ path }) => {
        const stamp = stampOf(path), isNew = stamp !== null && stamp !== this.stamps.get(path);
        this.stamps.set(path, stamp);
        return isNew;
      });
      this.lookAt(files);
      if (changed.length > 0) await this.print(changed);
      // (what --write wrote is no change)
      changed.forEach(({ path, target }) => path === target && this.stamps.set(path, stampOf(path)));
    } catch (error) {
      if (!(error instanceof Fault)) throw error;
      console.error(error.message);
    } finally {
      this.isBusy = false;
    }
  }
}

module.exports = { Watch };
