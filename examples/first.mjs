// first.mjs: prints the canonical board of Microsoft's deal 1, and the move 3a as it is made there.
import { Board } from 'fcanon';

const { board, passage } = Board.deal(1).canonicalize();
console.log(`${board}> ${passage.carry('3a')}`);
