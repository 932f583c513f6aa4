// refused: 2:1 no record for TryStatement
try {} catch {}
