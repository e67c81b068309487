<?php

namespace App\Controller;

use Symfony\Bundle\FrameworkBundle\Controller\AbstractController;
use Symfony\Component\HttpFoundation\Response;
use Symfony\Component\HttpKernel\Exception\HttpException;

/** What is the same for everybody, and the fragments of it: each says by `s-maxage` how long it may be kept. */
class ShopController extends AbstractController
{
    public function home(): Response
    {
        $response = $this->render('home.html.twig')->setPublic()->setSharedMaxAge(600);
        $response->headers->set('Content-Security-Policy', "default-src 'self'");

        return $response;
    }

    public function tiles(): Response
    {
        return $this->render('tiles.html.twig')->setPublic()->setSharedMaxAge(600);
    }

    public function lamp(string $name): Response
    {
        return $this->render('lamp.html.twig', ['name' => $name])->setPublic()->setSharedMaxAge(600);
    }

    public function sale(): Response
    {
        return $this->render('sale.html.twig')->setPublic()->setSharedMaxAge(600);
    }

    public function old(): Response
    {
        return $this->redirectToRoute('lamp', ['name' => 'brass'], 301);
    }

    public function refusal(int $status): Response
    {
        throw new HttpException($status, 'No.', null, ['Retry-After' => '7']);
    }

    public function stock(): Response
    {
        $response = $this->json(['brass' => 7, 'Öl' => 2])->setPublic()->setSharedMaxAge(1);
        $response->headers->addCacheControlDirective('stale-if-error', '600');

        return $response;
    }

    public function manual(): Response
    {
        return new Response(implode("\n", range(1, 60000))."\n", 200, [
            'Content-Type' => 'text/plain',
            'Content-Disposition' => 'attachment; filename=manual.txt',
        ]);
    }

    public function news(string $title): Response
    {
        return $this->render('news.html.twig', ['title' => $title])->setPublic()->setSharedMaxAge(600);
    }

    public function shelf(): Response
    {
        return $this->render('shelf.html.twig')->setPublic()->setSharedMaxAge(600);
    }
}
