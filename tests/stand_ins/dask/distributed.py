"""A stand-in for Dask, with what examples/dask/convert.py uses of it: tasks are run by threads."""
from concurrent.futures import ThreadPoolExecutor


class Client:
    def __init__(self, *_, **options):
        self.count = options.get("threads_per_worker") or 1
        self.threads = ThreadPoolExecutor(self.count)

    def nthreads(self):
        return {"this process": self.count}

    def submit(self, function, *arguments, pure):
        assert pure is False
        return self.threads.submit(function, *arguments)

    def close(self):
        self.threads.shutdown(cancel_futures=True)
