// require.cjs: what `require` finds where Node cannot require an ES module.
throw new Error(
  "fcanon is an ES module: write import { Board } from 'fcanon', or (await import('fcanon')).Board",
);
