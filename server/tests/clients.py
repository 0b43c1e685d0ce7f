#!/usr/bin/env python3
"""Runs the tests of clients with cefrodild: those of pymemcache and, if its source is there, Django's tests of caches.

usage: clients.py CEFRODILD [DJANGO]     DJANGO: the folder of Django's source, which Debian has: apt-get source python-django

It needs, of Debian, python3-pymemcache and python3-pytest; and for Django python3-pylibmc, python3-memcache, python3-asgiref, python3-tz and
python3-sqlparse. It leaves out the tests of TLS.
"""
import os
import subprocess
import sys
import tempfile

from running import running

PYTHON = '/usr/bin/python3'
BACKENDS = ('PyMemcacheCache', 'PyLibMCCache', 'MemcachedCache')
SETTINGS = '''
DATABASES = {name: {'ENGINE': 'django.db.backends.sqlite3'} for name in ('default', 'other')}
SECRET_KEY, USE_TZ, DEFAULT_AUTO_FIELD = 'none', False, 'django.db.models.AutoField'
CACHES = {name: {'BACKEND': f'django.core.cache.backends.memcached.{name}', 'LOCATION': '127.0.0.1:%d'} for name in %r}
CACHES['default'] = CACHES['PyMemcacheCache']
'''


def passed(command, folder, path=''):
    """Runs tests, and prints how many there were; or all that they say, if one fails."""
    ran = subprocess.run([PYTHON, *command], cwd=folder, env={**os.environ, 'PYTHONPATH': path}, text=True, timeout=300, check=False, stdout=subprocess.PIPE, stderr=subprocess.STDOUT)
    lines = [line for line in ran.stdout.splitlines() if ' passed' in line or line.startswith('Ran ')]
    print('\n'.join(f'clients: {line}' for line in lines) if ran.returncode == 0 else ran.stdout)
    return ran.returncode == 0 and len(lines) == 1


def pymemcache(port, folder):
    found = subprocess.run([PYTHON, '-c', 'import pymemcache.test as tests; print(tests.__path__[0])'], check=True, capture_output=True, text=True).stdout.strip()
    return passed(['-m', 'pytest', '-q', '-W', 'ignore', '-p', 'no:cacheprovider', f'{found}/test_integration.py', '-k', 'not tls', '--server', '127.0.0.1', '--port', str(port)], folder)


def django(source, port, folder):
    with open(f'{folder}/settings_of_caches.py', 'w', encoding='ascii') as file:
        file.write(SETTINGS % (port, BACKENDS))
    tests = [f'cache.tests.{name}Tests' for name in BACKENDS]
    command = ['-W', 'ignore', 'runtests.py', '--parallel', '1', '--settings=settings_of_caches', *tests]
    return passed(command, f'{source}/tests', f'{os.path.abspath(source)}:{folder}')


def main():
    program, *source = sys.argv[1:]
    # By one thread: a test of pymemcache sends `flush_all` and leaves, and the next one's `set` must not overtake it.
    with running(program, '-t', '1') as (_, port), tempfile.TemporaryDirectory() as folder:
        each = [pymemcache(port, folder), *(django(path, port, folder) for path in source)]
    return 0 if all(each) else 1


if __name__ == '__main__':
    sys.exit(main())
