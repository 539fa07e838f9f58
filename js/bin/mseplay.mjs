#!/usr/bin/env node
import { main } from '../src/front/main.mjs';

process.exitCode = await main(process.argv.slice(2));
