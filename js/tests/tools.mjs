// What is installed, so that a test of what is missing is skipped by name.

import { spawnSync } from 'node:child_process';

/** Whether a command is there. */
export const has = (name, ...words) => spawnSync(name, words.length > 0 ? words : ['--version']).status === 0;

/** Why a test is skipped that needs a command; false where it is there. */
export const skipWithout = (name, debian) => !has(name) && `no ${name} here: it is in the Debian package ${debian}`;
