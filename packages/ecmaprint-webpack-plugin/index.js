'use strict';
// An item of webpack's `optimization.minimizer`: prints the assets, minified unless `minify` is false. Names stay.
const { Printer } = require('ecmaprint');

const NAME = 'EcmaprintPlugin';

class EcmaprintPlugin {
  constructor({ test = /\.[cm]?js(\?.*)?$/i, parser = null, program, sync, ...options } = {}) {
    Object.assign(this, { test, parser: parser || require('acorn'), program, sync, options });
  }

  apply(compiler) {
    const printer = new Printer({ program: this.program, sync: this.sync });
    const { Compilation } = compiler.webpack, stage = { name: NAME, stage: Compilation.PROCESS_ASSETS_STAGE_OPTIMIZE_SIZE, additionalAssets: true };
    compiler.hooks.shutdown.tap(NAME, () => printer.end());
    compiler.hooks.compilation.tap(NAME, (compilation) => {
      const isWanted = (name) => this.test.test(name) && !compilation.getAsset(name).info.minimized;
      const print = (name) => this.print(name, compilation, printer, compiler.webpack.sources);
      compilation.hooks.processAssets.tapPromise(stage, (assets) => Promise.all(Object.keys(assets).filter(isWanted).map(print)));
    });
  }

  async print(name, compilation, printer, { RawSource, SourceMapSource }) {
    const { source, info } = compilation.getAsset(name), { source: given, map: input } = source.sourceAndMap(), code = String(given);
    try {
      const printed = await this.printed(name, code, info, { printer, hasMap: !!input || !!compilation.options.devtool });
      if (printed.left.length > 0) compilation.warnings.push(new Error(`${name}: ${printed.left.length} comments have no place in the text`));
      const made = printed.map ? new SourceMapSource(printed.code, name, printed.map, code, input, true) : new RawSource(printed.code);
      compilation.updateAsset(name, made, { ...info, minimized: true });
    } catch (error) {
      compilation.errors.push(new Error(`${name}: ${error.message}`));
    }
  }

  async printed(name, code, { javascriptModule }, { printer, hasMap }) {
    const comments = [], sourceType = javascriptModule ? 'module' : 'script';
    const ast = this.parser.parse(code, { ecmaVersion: 'latest', sourceType, allowReturnOutsideFunction: true, allowHashBang: true, locations: true, onComment: comments });
    const asked = { minify: true, comments: 'some', sourceMaps: hasMap, sourceFileName: name, any: 'retry', ...this.options };
    return printer.print({ ...ast, comments, sourceType }, asked, code);
  }
}

module.exports = EcmaprintPlugin;
